// A comment, a name past ASCII, and a reserved word as a name.
shared.größe = 3;
shared.new = 4; /* blanks and comments
                   may stand between any two tokens */
print(shared.größe, shared . new, shared.if);
