SignatureOfC: trait
  introduces
    Stack new();
    Stack push(Stack s, Item i);
    bool isNew(Stack s);
