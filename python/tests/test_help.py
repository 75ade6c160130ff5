"""Help, shell completion and the manual page, all made of the commands; and that each command's function
takes its arguments."""

import inspect
import json
import os
import shutil
import subprocess
import unittest

from support import CASE_L, FolderTest, command
from crr.cli import listed, parser
from crr.reading import Reading


def completed(words):
    """What bash offers for the last of some words."""
    script = command("completion", "bash")[1]
    quoted = " ".join(json.dumps(word) for word in words)
    tell = 'printf "%s\\n" "${COMPREPLY[@]}"'
    asked = f"{script}\nCOMP_WORDS=({quoted}); COMP_CWORD={len(words) - 1}; _crr; {tell}"
    return subprocess.run(["bash", "-c", asked], stdout=subprocess.PIPE, check=True).stdout.decode().split()


class Commands(unittest.TestCase):
    def test_functions_take_the_arguments(self):
        self.assertGreater(len(listed()), 18)
        for one in listed():
            names = {
                each.settings.get("dest") or each.names[-1].lstrip("-").replace("-", "_")
                for each in one.arguments
            }
            if names & set(Reading._fields):  # handed over as one
                names = {*names - set(Reading._fields), "reading"}
            self.assertEqual(names, set(inspect.signature(one.function).parameters), one.name)

    def test_every_command_has_help(self):
        self.assertEqual(command("help"), command("--help"))
        for one in listed():
            status, out, err = command("help", one.name)
            self.assertEqual((status, out, err), command(one.name, "--help"))
            self.assertEqual((status, out.startswith(f"usage: crr {one.name} "), err), (0, True, ""))
            self.assertRegex(command("help")[1], rf"\n    {one.name}\s")

    def test_json(self):
        for asked in (("--json", "--help"), ("--help", "--json")):
            self.assertEqual(json.loads(command(*asked)[1]), {"help": command("--help")[1]})
        self.assertEqual(command("test", "--help", "--json"), command("help", "test", "--json"))

    def test_no_such_command(self):
        status, out, err = command("help", "tset")
        self.assertEqual(
            (status, out, err.count("there is no command 'tset'; `crr help` lists them")), (2, "", 1)
        )


class Completion(FolderTest):
    def test_bash(self):
        self.assertEqual(completed(["crr", "un"]), ["unpack"])
        self.assertEqual(completed(["crr", "h"]), ["holder", "hub-mcc", "hub-add", "hours", "help"])
        self.assertEqual(completed(["crr", "test", "--pr"]), ["--process"])
        self.assertEqual(
            completed(["crr", "test", "mine", "--process", ""]), ["annual", "lt", "monthly", "all"]
        )
        self.assertEqual(completed(["crr", "--json", "tiers", "--period", "o"]), ["off", "on"])
        self.assertEqual(completed(["crr", "help", "un"]), ["unpack"])
        self.assertEqual(completed(["crr", "completion", ""]), ["bash", "zsh"])
        self.assertEqual(completed(["crr", "test", "mi"]), [])  # a folder: bash completes files

    def test_every_command_and_option(self):
        before = [name for action in parser()._actions for name in action.option_strings if name[:2] == "--"]
        self.assertLessEqual({"--json", "--help"}, set(before))
        self.assertEqual(sorted(completed(["crr", ""])), sorted([one.name for one in listed()] + before))
        for one in listed():
            options = [name for each in one.arguments for name in each.names if name.startswith("--")]
            self.assertEqual(
                sorted(completed(["crr", one.name, "-"])), sorted(["--json", "--help", *options])
            )

    @unittest.skipUnless(shutil.which("shellcheck"), "shellcheck is not installed")
    def test_shellcheck(self):
        done = subprocess.run(
            ["shellcheck", "-s", "bash", "-"],
            input=command("completion", "bash")[1].encode(),
            stdout=subprocess.PIPE,
        )
        self.assertEqual((done.returncode, done.stdout.decode()), (0, ""))

    @unittest.skipUnless(shutil.which("zsh"), "zsh is not installed")
    def test_zsh(self):
        """zsh reads the script and offers what it says; _describe and _arguments tell what they are
        handed."""
        script = command("completion", "zsh")[1]
        subprocess.run(["zsh", "-n", "-c", script], check=True)
        stubs = '_describe() { print -l -- "${commands[@]}" }\n'
        stubs += '_arguments() { [[ $1 == -C ]] && { state=$STATE; line=($LINE) } || print -rl -- "$@" }'
        run = f"compdef() {{ }}\n{script}\n{stubs}\n_crr"
        out = {}
        for state, line in (("command", ""), ("argument", "tiers"), ("argument", "help")):
            done = subprocess.run(
                ["zsh", "-f", "-c", run],
                env={**os.environ, "STATE": state, "LINE": line},
                stdout=subprocess.PIPE,
                check=True,
            )
            out[line] = done.stdout.decode().splitlines()
        self.assertEqual([line.partition(":")[0] for line in out[""]], [one.name for one in listed()])
        self.assertIn("--period[off-peak or on-peak hours]:off,on:(off on)", out["tiers"])
        self.assertIn(":FOLDER:_files -/", out["tiers"])
        self.assertIn("::AWARDS:_files", out["tiers"])
        self.assertEqual(out["help"][-1], f":COMMAND:({' '.join(one.name for one in listed())})")

    def test_no_other_shell(self):
        status, _, err = command("completion", "fish")
        self.assertEqual((status, err.count("argument SHELL: 'fish' is none of bash, zsh")), (2, 1))


class Manual(FolderTest):
    def test_all_is_in_it(self):
        page = command("man")[1]
        plain = page.replace("\\-", "-")
        for one in listed():
            self.assertIn(f".SS {one.name}\n", plain)
            self.assertIn(f"\n{one.help}.\n", plain)
            for each in one.arguments:
                self.assertIn(each.settings["help"], plain)
        self.assertIn(parser().epilog.replace("Exit status: ", ""), plain)

    @unittest.skipUnless(shutil.which("groff"), "groff is not installed")
    def test_groff(self):
        done = subprocess.run(
            ["groff", "-man", "-Tascii", "-ww", "-z"],
            input=command("man")[1].encode(),
            stderr=subprocess.PIPE,
        )
        self.assertEqual((done.returncode, done.stderr.decode()), (0, ""))

    def test_json(self):
        self.assertEqual(json.loads(command("man", "--json")[1])["page"], command("man")[1])
        self.assertEqual(command("test", CASE_L)[0], 0)


if __name__ == "__main__":
    unittest.main()
