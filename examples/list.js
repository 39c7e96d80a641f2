// A linked list: made from its end, added up, and turned round in place.
let list = null;
for (let i = 4; i > 0; i -= 1) list = {value: i * i, next: list};

let sum = 0;
for (let node = list; node !== null; node = node.next) {
    print(node, node.value);
    sum += node.value;
}
print("sum", sum);

let turned = null;
while (list !== null) {
    let rest = list.next;
    list.next = turned;
    turned = list;
    list = rest;
}
for (let node = turned; node !== null; node = node.next) print(node, node.value);
shared.first = turned;
