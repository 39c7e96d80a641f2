shared.x = 9007199254740993;
print(shared.x);
