% A mail box with room for so many letters; what is sent when it is full is sent back.
% Source: G. Agha, Actors (1986), of mail boxes; G. Kahn, D. MacQueen, Coroutines and networks (1977).
MailBox (M, Q): trait
  includes Queue (M, Q), NaturalOrder
  Box tuple of letters: Q, lost: N
  introduces
    room: -> N
    new: -> Box
    isFull: Box -> Bool
    send: Box, M -> Box
    receive: Box -> Box
    isRight: Box -> Bool
  asserts
    \forall b: Box, m: M
      new == [empty, 0];
      isFull(b) == room <= size(b.letters);
      send(b, m) == if isFull(b) then set_lost(b, s(b.lost)) else set_letters(b, add(b.letters, m));
      receive(b) == if isEmpty(b.letters) then b else set_letters(b, rest(b.letters));
      isRight(b) == size(b.letters) <= room
  implies
    \forall b: Box, m: M, q: Q, k, n: N
      n <= s(n);
      isEmpty(q) => q = empty;
      ~isEmpty(q) => s(size(rest(q))) = size(q);
      k <= n => k <= s(n);
      s(k) <= n => k <= n;
      k < n == s(k) <= n;
      isRight(new);
      isRight(b) => isRight(send(b, m));
      isRight(b) => isRight(receive(b));
      isFull(b) => send(b, m).letters = b.letters;
      ~isFull(b) => send(b, m).lost = b.lost;
      receive(b).lost == b.lost;
      n <= 0 == n = 0;
      room ~= 0 => ~isFull(new);
      room ~= 0 => receive(send(new, m)) = new
  converts new, isFull, send, receive, isRight
