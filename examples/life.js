// The game of life on a torus of 6 by 6 cells: a glider and four generations more. What is left is the one after these.
let size = 6;
let cells = {1: true, 8: true, 12: true, 13: true, 14: true};
let row = {};

for (let generation = 0; generation < 5; generation += 1) {
    print("generation", generation);
    let next = {};
    for (let y = 0; y < size; y += 1) {
        for (let x = 0; x < size; x += 1) {
            let alive = y * size + x in cells;
            row[x] = alive ? "#" : ".";

            let around = 0;
            for (let i = y + size - 1; i <= y + size + 1; i += 1) {
                for (let j = x + size - 1; j <= x + size + 1; j += 1) {
                    if (i % size * size + j % size in cells) around += 1;
                }
            }
            if (alive) around -= 1;
            if (around === 3 || alive && around === 2) next[y * size + x] = true;
        }
        print(row[0], row[1], row[2], row[3], row[4], row[5]);
    }
    cells = next;
}
shared.cells = cells;
