% Truth values: the laws of the connectives, and three connectives more.
% Source: G. Boole, The Laws of Thought (1854); the exclusive "or" as addition: I. Zhegalkin (1927).
% Surprising: an implication and its converse can't both fail; two exclusive "or"s undo each other.
Truth: trait
  introduces
    __ \xor __: Bool, Bool -> Bool
    majority: Bool, Bool, Bool -> Bool
    __ \nand __: Bool, Bool -> Bool
  asserts
    \forall p, q, r: Bool
      p \xor q == ~(p <=> q);
      majority(p, q, r) == if p then q \/ r else q /\ r;
      p \nand q == ~(p /\ q)
  implies
    \forall p, q, r: Bool
      % Conjunction, disjunction, negation.
      p /\ q == q /\ p;
      (p /\ q) /\ r == p /\ (q /\ r);
      p \/ q == q \/ p;
      (p \/ q) \/ r == p \/ (q \/ r);
      p /\ (p \/ q) == p;
      p \/ (p /\ q) == p;
      p /\ (q \/ r) == (p /\ q) \/ (p /\ r);
      p \/ (q /\ r) == (p \/ q) /\ (p \/ r);
      ~(p /\ q) == ~p \/ ~q;
      ~(p \/ q) == ~p /\ ~q;
      % Implication.
      p => q == ~p \/ q;
      p => q == ~q => ~p;
      (p /\ q) => r == p => (q => r);
      p => (q /\ r) == (p => q) /\ (p => r);
      (p \/ q) => r == (p => r) /\ (q => r);
      ((p => q) => p) => p;
      (p => q) \/ (q => p);
      % Equivalence and what excludes.
      p <=> q == (p => q) /\ (q => p);
      (p <=> q) <=> r == p <=> (q <=> r);
      p \xor q == q \xor p;
      (p \xor q) \xor r == p \xor (q \xor r);
      (p \xor q) \xor q == p;
      p /\ (q \xor r) == (p /\ q) \xor (p /\ r);
      majority(p, q, r) == (p \/ q) /\ (q \/ r) /\ (r \/ p);
      majority(p, q, r) == majority(q, p, r);
      ~majority(p, q, r) == majority(~p, ~q, ~r);
      % One connective makes all.
      ~p == p \nand p;
      p /\ q == (p \nand q) \nand (p \nand q);
      p \/ q == (p \nand p) \nand (q \nand q)
  converts \xor, majority, \nand
