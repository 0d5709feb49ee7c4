// Nothing: what a start costs.
print(0);
