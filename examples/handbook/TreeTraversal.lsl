% The elements of a tree as a list, in three orders.
% Source: D. Knuth, The Art of Computer Programming, volume 1 (1968), section 2.3.1.
% Surprising: a mirrored tree read in preorder is the tree read in postorder, backwards.
TreeTraversal (E, T, L): trait
  includes BinaryTree (E, T), ListLength (E, L)
  introduces
    inorder, preorder, postorder: T -> L
    inorderOnto: T, L -> L
  asserts
    \forall t, u: T, e: E, l: L
      inorder(leaf) == nil;
      inorder(node(t, e, u)) == inorder(t) ++ cons(e, inorder(u));
      preorder(leaf) == nil;
      preorder(node(t, e, u)) == cons(e, preorder(t) ++ preorder(u));
      postorder(leaf) == nil;
      postorder(node(t, e, u)) == postorder(t) ++ (postorder(u) ++ single(e));
      inorderOnto(leaf, l) == l;
      inorderOnto(node(t, e, u), l) == inorderOnto(t, cons(e, inorderOnto(u, l)))
  implies Monoid (L, __ ++ __ for __ * __, nil for unit)
    \forall t, u: T, e: E, k, l: L, m, n: N
      s(m) + n == s(m + n);
      m + n == n + m;
      reverse(k ++ l) == reverse(l) ++ reverse(k);
      length(k ++ l) == length(k) + length(l);
      inorder(mirror(t)) == reverse(inorder(t));
      preorder(mirror(t)) == reverse(postorder(t));
      inorderOnto(t, l) == inorder(t) ++ l;
      length(inorder(t)) == size(t);
      length(preorder(t)) == size(t);
      length(postorder(t)) == size(t);
      isEmpty(k ++ l) == isEmpty(k) /\ isEmpty(l);
      isEmpty(inorder(t)) == isLeaf(t)
  converts inorder, preorder, postorder, inorderOnto
