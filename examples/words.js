// How often each word stands in a list.
let words = {0: "sea", 1: "sky", 2: "sea", 3: "wind", 4: "sea", 5: "sky"};
let counts = {};
for (let i = 0; i in words; i += 1) {
    let word = words[i];
    if (!(word in counts)) counts[word] = 0;
    counts[word] += 1;
}
printNames(counts);
print(counts.sea, counts.sky, counts.wind);
shared.counts = counts;
