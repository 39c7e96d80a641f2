let x = 1;
let y = 2;
let x = x + y;
