min cost: 2 a + 3 b \ words on the line of a heading belong to its section
s.t. need: a + b >= 3
bound a <= 2
 b <= 2
int a b
end
