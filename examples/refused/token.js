shared.x = 1;
if (shared.x == 1) print("one");
