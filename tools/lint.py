"""Has node and eslint read scripts."""
import os
import shutil
import subprocess

# Where Debian's packages of node put their modules, for a node of another origin.
MODULES = "/usr/share/nodejs:/usr/lib/nodejs"
RULES = {"no-undef": 2, "no-unused-vars": 2, "no-redeclare": 2, "no-shadow": 2, "eqeqeq": 2, "prefer-const": 2, "no-var": 2,
         "max-lines-per-function": [2, 45]}
GLOBALS = ("BigInt", "CompressionStream", "DecompressionStream", "WebAssembly")  # which eslint doesn't know of


def read_scripts(scripts, env="browser"):
    """Returns what node and eslint say against scripts for a browser, or node, and the names of those that are missing."""
    folder = os.path.commonpath([os.path.dirname(it) for it in scripts])
    names = [os.path.relpath(it, folder) for it in scripts]
    commands = [["node", "--check", name] for name in names]
    commands.append(["eslint", "--no-eslintrc", "--format", "unix", "--env", f"{env},es6", "--parser-options", "ecmaVersion:2020",
                     *[word for name in GLOBALS for word in ("--global", f"{name}:readonly")],
                     *[word for rule, level in RULES.items() for word in ("--rule", f"{rule}: {level}")], *names])
    how = {"capture_output": True, "text": True, "stdin": subprocess.DEVNULL, "env": {**os.environ, "NODE_PATH": MODULES}, "cwd": folder}
    missing = [name for name in ("node", "eslint") if shutil.which(name) is None]
    ran = [(words[0], subprocess.run(words, check=False, **how)) for words in commands if words[0] not in missing]
    return [f"{name}: {done.stdout}{done.stderr}" for name, done in ran if done.returncode != 0], missing
