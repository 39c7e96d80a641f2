// A counter of visitors at eight doors, a script for each. Each counts a hundred, and however they race, the last line says
// 800. Each prints how often another door came between its look at the counter and its `cas`, and made it try again: 0 or
// more, which differs from run to run. With `shared.visitors += 1` in the place of `cas` visitors would be lost.
shared.visitors = 0;

let counted = 0, again = 0;
while (counted < 100) {
    let v = shared.visitors;
    if (cas(shared, "visitors", v, v + 1) === v) counted += 1;
    else again += 1;
}
print("again", again);
%%
// The others wait until the counter is there.
while (shared.visitors === undefined) {}
let counted = 0, again = 0;
while (counted < 100) {
    let v = shared.visitors;
    if (cas(shared, "visitors", v, v + 1) === v) counted += 1;
    else again += 1;
}
print("again", again);
%%
while (shared.visitors === undefined) {}
let counted = 0, again = 0;
while (counted < 100) {
    let v = shared.visitors;
    if (cas(shared, "visitors", v, v + 1) === v) counted += 1;
    else again += 1;
}
print("again", again);
%%
while (shared.visitors === undefined) {}
let counted = 0, again = 0;
while (counted < 100) {
    let v = shared.visitors;
    if (cas(shared, "visitors", v, v + 1) === v) counted += 1;
    else again += 1;
}
print("again", again);
%%
while (shared.visitors === undefined) {}
let counted = 0, again = 0;
while (counted < 100) {
    let v = shared.visitors;
    if (cas(shared, "visitors", v, v + 1) === v) counted += 1;
    else again += 1;
}
print("again", again);
%%
while (shared.visitors === undefined) {}
let counted = 0, again = 0;
while (counted < 100) {
    let v = shared.visitors;
    if (cas(shared, "visitors", v, v + 1) === v) counted += 1;
    else again += 1;
}
print("again", again);
%%
while (shared.visitors === undefined) {}
let counted = 0, again = 0;
while (counted < 100) {
    let v = shared.visitors;
    if (cas(shared, "visitors", v, v + 1) === v) counted += 1;
    else again += 1;
}
print("again", again);
%%
while (shared.visitors === undefined) {}
let counted = 0, again = 0;
while (counted < 100) {
    let v = shared.visitors;
    if (cas(shared, "visitors", v, v + 1) === v) counted += 1;
    else again += 1;
}
print("again", again);
