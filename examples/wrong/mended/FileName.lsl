% The trait of the file FileName.lsl is called FileName.
FileName: trait
  introduces
    0: -> N
