"""tailnetctl: what an operator types, over the server's paths of operators. Python's own library is all that it needs."""
