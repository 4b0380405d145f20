"""Filters in words: SQL into frames, and frames, plans and answers into words. docs/FRAMES.md says which word is which byte.

  tables     the words with their numbers, limits and refusals
  tree       frames as trees, and their bytes
  tokens, types, literals, columns, operands, read     words into trees
  show, answers, faults     trees, plans and answers into words; why a frame is refused
  command    what the scripts encode, decode and plan share"""
