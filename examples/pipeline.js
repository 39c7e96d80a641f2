// A pipeline: script 1 makes numbers, script 2 squares them, script 3 adds them up. Between two scripts lies a slot with a
// flag: who fills it puts the value first and then the flag, and who empties it reads the value first and then takes the
// flag down. So no value is lost or read twice, and where no script runs out of turns there is one output.
let made = {full: false, value: 0}, squared = {full: false, value: 0};
shared.made = made;
shared.squared = squared;

for (let i = 1; i <= 5; i += 1) {
    while (made.full) {}
    made.value = i;
    made.full = true;
}
%%
// Both slots are there once the second one is.
while (shared.squared === undefined) {}
let from = shared.made, to = shared.squared;

for (let i = 0; i < 5; i += 1) {
    while (!from.full) {}
    let value = from.value;
    from.full = false;
    while (to.full) {}
    to.value = value * value;
    to.full = true;
}
%%
while (shared.squared === undefined) {}
let from = shared.squared, sum = 0;

for (let i = 0; i < 5; i += 1) {
    while (!from.full) {}
    sum += from.value;
    print(from.value, "makes", sum);
    from.full = false;
}
shared.sum = sum;
