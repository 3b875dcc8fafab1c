"""Shows what Python sets for the module `__main__`."""

import os
import sys

main = sys.modules["__main__"]
print(vars(main) is globals(), main, sys.argv, sys.path)
print({name: globals().get(name, "none") for name in ("__name__", "__file__", "__package__", "__cached__", "__annotations__")})
print(__spec__ and (__spec__.name, __spec__.origin), type(__loader__), getattr(__loader__, "name", ""), __builtins__)
print((lambda: 0).__code__.co_filename, sorted(name for name in os.environ if name.startswith("PYTHON")))
