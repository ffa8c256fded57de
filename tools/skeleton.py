"""skeleton.py printed what a proof by hand starts from, for functions over slices of structs or references to structs. Today's check
proves such functions like any others, and starts their proofs."""
import sys

print("in the crate's folder, `rt check --start FUNCTION --allow-holes` writes the files that FUNCTION's proof starts from, and prints its goals",
      file=sys.stderr)
sys.exit(2)
