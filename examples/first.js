shared.x = 1;
shared.y = 2;
print(shared.x, shared.z);
