trait HeadWithTraitFirst
  introduces
    a: -> A
end
