% The trait of the file FileName.lsl is called FileName.
Filename: trait
  introduces
    0: -> N
