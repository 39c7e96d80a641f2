let total = 1;
print(totel);
