"""Runs the examples of the manuals, and compares what they print.

    manuals.py TOP PROGRAM [--write] [MANUAL..]

An example is a line `$ COMMAND` in a block of code, with the lines behind it up to the next one or an empty line. It is run by a
shell, in a folder of its own for each manual, where a simulated modem of each kind was begun anew. Comments in front of a block say
what else it is, up to the next text:

    <!-- skip: REASON -->       it isn't run: it needs what isn't here
    <!-- usage -->              it says how words are put
    <!-- output -->             it shows what a program may print
    <!-- file: NAME -->         it is that file's text, for the examples behind it
    <!-- script: TOOL.. -->     it is a program that ends with status 0 and prints nothing; passed over without these tools
"""

import os
import re
import shutil
import subprocess
import sys
import tempfile
import time

MANUALS = ["README.md"] + [f"docs/{name}.md" for name in ("QMICLI", "MBIMCLI", "MODEM-SIM", "QMI-PROXY", "MBIM-PROXY", "RIG", "DEVICES", "ERRORS", "SMS", "DISSECT")]
PROFILE = "profiles/em7455.json"
COMMANDS = re.compile(r"(modemkit|\./modemkit|qmicli|mbimcli|socat|systemctl|\./install|\./demo|rt|apt|adduser|dpkg|packaging/\S+|bench/\S+)( |$)")


def blocks(lines):
    """The blocks of code: what their comment says, and their lines with their numbers from 0 on."""
    mark, block, found, fence = "", [], [], False
    for number, line in enumerate(lines + [""]):
        if line.startswith("```"):
            fence = not fence
            continue
        if fence or line.startswith("    ") or (block and not line.strip()):
            block.append((number, line if fence else line[4:]))
            continue
        while block and not block[-1][1].strip():
            block.pop()
        if block:
            found.append((mark, block))
            block = []
        comment = re.fullmatch(r"<!-- (\w+)(?:: (.*))? -->", line)
        if comment:
            mark = (comment[1], comment[2] or "")
        elif line.strip():
            mark = ("", "")
    return [(mark or ("", ""), block) for mark, block in found]


class Room:
    """A folder with the program and a simulated modem of each kind, for one manual."""

    def __init__(self, top, program):
        self.folder = tempfile.mkdtemp()
        self.running = []
        os.mkdir(f"{self.folder}/bin")
        os.symlink(os.path.abspath(program), f"{self.folder}/bin/modemkit")
        # the README's examples stand at the repository's top
        os.symlink("bin/modemkit", f"{self.folder}/modemkit")
        shutil.copytree(f"{top}/profiles", f"{self.folder}/profiles")
        self.env = dict(os.environ, PATH=f"{self.folder}/bin:{os.environ['PATH']}", TMPDIR=self.folder)
        for kind in ("qmi", "mbim"):
            self.start(f"exec modemkit modem-sim --kind {kind} --socket {self.folder}/of-{kind} --profile {PROFILE}", f"{self.folder}/of-{kind}")

    def start(self, command, socket):
        if os.path.exists(socket):
            raise SystemExit(f"{socket} is there already: {command}")
        self.running.append(subprocess.Popen(["sh", "-c", command], cwd=self.folder, env=self.env, stdin=subprocess.DEVNULL))
        until = time.monotonic() + 20
        while not os.path.exists(socket):
            if time.monotonic() > until or self.running[-1].poll() is not None:
                raise SystemExit(f"{socket} doesn't come: {command}")
            time.sleep(0.02)

    def placed(self, command):
        """The command at this room's modems and sockets."""
        kind = "mbim" if re.search(r"\bmbim(cli|-proxy)\b|--kind[= ]mbim", command) else "qmi"
        command = command.replace("/tmp/", f"{self.folder}/")
        command = re.sub(r"(-d|--device)([ =])PATH\b", rf"\1\2{self.folder}/of-{kind}", command)
        if "--socket" not in command:
            default = f"{self.folder}/{kind}-proxy.sock"
            # (for a pipe, behind the first command)
            command = re.sub(r"(modemkit (?:qmicli|mbimcli) (?:-p|--device-open-proxy))\b", rf"\1 --socket {default}", command)
            command = re.sub(r"(modemkit (?:qmi|mbim)-proxy)\b", rf"\1 --socket {default}", command)
        return command

    def run(self, command):
        """What it prints, on stdout and stderr."""
        placed = self.placed(command)
        if placed.endswith("&"):
            socket = re.search(r"--socket[= ](\S+)", placed)[1]
            self.start("exec " + placed.rstrip("& "), socket)
            return []
        ran = subprocess.run(["sh", "-c", placed], cwd=self.folder, env=self.env, stdin=subprocess.DEVNULL, stdout=subprocess.PIPE, stderr=subprocess.STDOUT, timeout=120)
        return ran.stdout.decode(errors="replace").replace(self.folder + "/", "/tmp/").split("\n")[:-1]

    def script(self, lines):
        path = f"{self.folder}/script"
        with open(path, "w") as file:
            file.write("\n".join(lines) + "\n")
        os.chmod(path, 0o755)
        ran = subprocess.run([path], cwd=self.folder, env=self.env, stdin=subprocess.DEVNULL, stdout=subprocess.PIPE, stderr=subprocess.STDOUT, timeout=120)
        return ran.stdout.decode(errors="replace").split("\n")[:-1] + ([f"status {ran.returncode}"] if ran.returncode else [])

    def close(self):
        for child in self.running:
            child.terminate()
        for child in self.running:
            child.wait()
        shutil.rmtree(self.folder)


def trimmed(lines):
    # (a text that is empty leaves a blank at its line's end, which editors take away)
    return [line.rstrip() for line in lines]


def main(top, program, *words):
    write = "--write" in words
    named = [word for word in words if word != "--write"]
    manuals = [it for it in MANUALS if not named or os.path.basename(it) in named or it in named]
    differ = 0
    for manual in manuals:
        with open(f"{top}/{manual}") as file:
            lines = file.read().split("\n")
        ran = skipped = unmarked = 0
        reasons, changes = {}, []
        room = Room(top, program)
        try:
            for (kind, text), block in blocks(lines):
                if kind == "skip":
                    count = sum(1 for _, line in block if line.startswith("$ ") or COMMANDS.match(line)) or 1
                    skipped += count
                    reasons[text] = reasons.get(text, 0) + count
                elif kind in ("usage", "output") or any("SETTING.." in line for _, line in block):
                    continue
                elif kind == "file":
                    with open(f"{room.folder}/{text}", "w") as file:
                        file.write("\n".join(line for _, line in block) + "\n")
                elif kind == "script":
                    missing = [tool for tool in text.split() if not shutil.which(tool)]
                    if missing:
                        skipped += 1
                        reasons[f"without {' and '.join(missing)}"] = 1
                        continue
                    ran += 1
                    said = room.script([line for _, line in block])
                    if said:
                        differ += 1
                        print(f"{manual}:{block[0][0] + 1}: the script says: {said}")
                else:
                    at = 0
                    while at < len(block):
                        number, line = block[at]
                        at += 1
                        if COMMANDS.match(line):
                            unmarked += 1
                            print(f"{manual}:{number + 1}: neither run nor marked: {line}")
                        if not line.startswith("$ "):
                            continue
                        wanted = []
                        while at < len(block) and block[at][1].strip() and not block[at][1].startswith("$ "):
                            wanted.append(block[at][1])
                            at += 1
                        ran += 1
                        said = room.run(line[2:])
                        if trimmed(said) != trimmed(wanted):
                            changes.append((number + 1, len(wanted), said))
                            if not write:
                                differ += 1
                                print(f"{manual}:{number + 1}: {line}")
                                print("\n".join([f"  - {it}" for it in wanted] + [f"  + {it}" for it in said]))
        finally:
            room.close()
        if write and changes:
            for number, count, said in reversed(changes):
                lines[number : number + count] = ["    " + it for it in trimmed(said)]
            with open(f"{top}/{manual}", "w") as file:
                file.write("\n".join(lines))
        told = "".join(f"; {count} {reason}" for reason, count in reasons.items())
        print(f"{manual}: {ran} run, {len(changes)} {'written' if write else 'differ'}, {skipped} skipped{told}")
        differ += unmarked
    print("all as the manuals say" if not differ else f"{differ} differ")
    return 1 if differ else 0


if __name__ == "__main__":
    sys.exit(main(*sys.argv[1:]))
