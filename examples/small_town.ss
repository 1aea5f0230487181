c questions in the form of the 9th DIMACS Implementation Challenge: Shortest Paths
c made by benchmarks/roads.cpp: ss 4000 3 7
c
p aux sp ss 3
c contains 3 questions
c
s 233
s 4
s 2300
