// A page whose changes can be undone: a stack keeps what each change replaced.
let page = {title: "Draft", lines: 3};
let edits = {
    0: {name: "title", value: "Report"},
    1: {name: "author", value: "Kim"},
    2: {name: "lines", value: 4},
};
let undo = {}, depth = 0;

for (let i = 0; i in edits; i += 1) {
    let name = edits[i].name;
    undo[depth] = {name: name, was: name in page, old: page[name]};
    depth += 1;
    page[name] = edits[i].value;
}
print(page.title, page.lines, page.author);

while (depth > 1) {
    depth -= 1;
    let step = undo[depth];
    if (step.was) page[step.name] = step.old;
    else delete page[step.name];
    delete undo[depth];
    print("undone", step.name);
}
print(page.title, page.lines, page.author);
printNames(page);
shared.page = page;
