% Arrays A of values V at indices I.
% Source: J. McCarthy, Towards a mathematical science of computation (1962).
% Surprising: two equations say all; that assignments at different places may change places follows.
Array (I, V, A): trait
  introduces
    new: V -> A
    put: A, I, V -> A
    __[__]: A, I -> V
    swap: A, I, I -> A
  asserts
    A partitioned by __[__]
    \forall a: A, i, j: I, v: V
      new(v)[i] == v;
      put(a, i, v)[j] == if i = j then v else a[j];
      swap(a, i, j) == put(put(a, i, a[j]), j, a[i])
  implies
    \forall a, b: A, i, j, k: I, v, w: V
      put(a, i, v)[i] == v;
      put(a, i, a[i]) == a;
      put(put(a, i, v), i, w) == put(a, i, w);
      i ~= j => put(put(a, i, v), j, w) = put(put(a, j, w), i, v);
      put(new(v), i, v) == new(v);
      swap(a, i, i) == a;
      swap(a, i, j)[i] == a[j];
      swap(a, i, j)[j] == a[i];
      swap(a, i, j) == swap(a, j, i);
      swap(swap(a, i, j), i, j) == a;
      swap(a, i, j) = swap(b, i, j) => a = b;
      new(v) = new(w) == v = w
  converts swap
