// A queue: what comes goes to the back, and what is served leaves the front. Each guest stands at an index.
let queue = {}, front = 0, back = 0;
let guests = {0: "Ada", 1: "Ben", 2: "Cleo", 3: "Dan"};

for (let i = 0; i in guests; i += 1) {
    queue[back] = {name: guests[i], seats: i % 2 + 1};
    back += 1;
}
print("waiting", back - front);

let free = 4;
while (front < back && queue[front].seats <= free) {
    let guest = queue[front];
    delete queue[front];
    front += 1;
    free -= guest.seats;
    print(guest.name, "takes", guest.seats, "and leaves", free);
}
print("waiting", back - front, "first", queue[front].name);
shared.queue = queue;
