OldNameUnknown: trait
  includes Number (add for __ * __)
