"""The planner's tool behind tools/plan: tables, files, the program's answers in words, and pictures."""
