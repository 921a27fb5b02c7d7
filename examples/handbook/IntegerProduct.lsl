% Multiplication of integers, with the laws of a commutative ring.
% Source: Guttag and Horning (1993), appendix A ("Integer"); N. Bourbaki, Algebre (1942).
% Surprising: three equations by the steps up and down determine it, minus times minus included.
IntegerProduct: trait
  includes Integer
  introduces
    1: -> Int
    __ * __: Int, Int -> Int
  asserts
    \forall x, y: Int
      1 == succ(0);
      x * 0 == 0;
      x * succ(y) == (x * y) + x;
      x * pred(y) == (x * y) - x
  implies
    \forall x, y, z: Int
      succ(x) + y == succ(x + y);
      pred(x) + y == pred(x + y);
      0 + x == x;
      (x + y) + z == x + (y + z);
      x + y == y + x;
      x + (y + z) == y + (x + z);
      x + (-x) == 0;
      (-x) + x == 0;
      -(x + y) == (-x) + (-y);
      -(-x) == x;
      0 * x == 0;
      x * 1 == x;
      1 * x == x;
      succ(x) * y == (x * y) + y;
      pred(x) * y == (x * y) + (-y);
      x * y == y * x;
      x * (y + z) == (x * y) + (x * z);
      (x + y) * z == (x * z) + (y * z);
      x * (-y) == -(x * y);
      (-x) * y == -(x * y);
      (-x) * (-y) == x * y;
      x * (y - z) == (x * y) - (x * z);
      (x * y) * z == x * (y * z)
  converts 1, *
