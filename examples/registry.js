// A registry of who sits where. Script 1 opens it; Ada (script 2) and Ben (script 3) claim the same seats. Who claims a desk
// does so by `cas`: of each desk one of the two prints true and the other one false. Ada asks for north and then south, Ben
// the other way. So one of them may have both desks, or Ada has north and Ben south; never Ada south and Ben north. The
// parking lot is claimed by a test and then a put, which is a mistake: where both test before either puts, both print true,
// and the later put stays.
shared.seats = {north: null, south: null};
%%
while (shared.seats === undefined) {}
let seats = shared.seats;

print("north", cas(seats, "north", null, "Ada") === null);
print("south", cas(seats, "south", null, "Ada") === null);

let free = !("parking" in seats);
if (free) seats.parking = "Ada";
print("parking", free);
%%
while (shared.seats === undefined) {}
let seats = shared.seats;

print("south", cas(seats, "south", null, "Ben") === null);
print("north", cas(seats, "north", null, "Ben") === null);

let free = !("parking" in seats);
if (free) seats.parking = "Ben";
print("parking", free);
