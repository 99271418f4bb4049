"""Precautions of services that run as another user, and of what they inherit."""

from plant import Plant

PLANTS = {
    "runner, of the keeper": Plant("run", "            if runner is not None:\n                return runner.start", "            if False:\n                return runner.start",
                                   "runner", "test_a_later_keeper_adopts"),
    "runner, own user": Plant("runner", "if self._see(made.pid) == os.geteuid():", "if self._see(made.pid) < 0:", "runner", "own_user"),
    "runner, left of its own user": Plant("runner", "                made.kill()\n", "                pass\n", "runner", "own_user"),
    "runner, own user at the start": Plant("runner", "if found[\"user\"] == os.geteuid():", "if found[\"user\"] < 0:", "runner", "own_user"),
    "runner, asked by anybody": Plant("runner_process", "            if user not in self._users:\n", "            if False:\n", "runner", "nobody_else"),
    "runner, ended by whoever asks oddly": Plant("runner_process", "with line, suppress(\n                    Exception\n                ):  # whoever sends that gets no reply, and all others do", "with line, suppress(OSError):  # whoever sends that gets no reply, and all others do", "runner", "sends_anything_else"),
    "runner, its environment": Plant("runner_process", "            env=environment(),\n", "", "runner", "no_variable"),
    "runner, its descriptors": Plant("runner_process", "pass_fds=(memory,),", "close_fds=False,", "runner", "no_descriptor_besides"),
    "runner, inherited": Plant("unix", "text, more, _, _ = line.recvmsg(\n        LONGEST, socket.CMSG_SPACE(MOST * _NUMBER.itemsize), socket.MSG_CMSG_CLOEXEC\n    )", "text, more, _, _ = line.recvmsg(LONGEST, socket.CMSG_SPACE(MOST * _NUMBER.itemsize))", "runner", "inherited_by_what"),
    "runner, readable errors": Plant("definition", "os.open(path, flags, 0o600)", "os.open(path, flags, 0o644)", "runner", "no_descriptor_besides"),
    "runner, kept descriptors": Plant("runner_process", "                self._poll.unregister(descriptor)\n                os.close(descriptor)\n",
                                      "                self._poll.unregister(descriptor)\n", "runner", "no_zombie"),
    "runner, its own end": Plant("runner", "        runner.end(process)\n", "        pass\n", "runner", "with_what_its_memory_has"),
    "runner, a socket for others": Plant("../cli/runner_words", ", readable=False", "", "runner", "systemd_has_made_for_the_keepers_user"),
    "runner, its memory": Plant("run", "memory = (\n            memory_of(pid)\n            if runner is None or is_allowed(pid)\n            else runner.memory_of(pid, self.descriptor)\n        )", "memory = memory_of(pid) if True else runner.memory_of(pid, self.descriptor)", "runner",
                                "with_what_its_memory_has"),
    "runner, unknown memory": Plant("run", "                made.acknowledged  # now", "                pass  # now", "runner", "lives_on_without_its_runner"),
    "runner, once": Plant("runner", "if time.monotonic() >= deadline:", "if True:", "runner", "waited_for_while"),
    "runner, a keeper without": Plant("../cli/keeper_words", "        settings.program.runner.check()\n", "        pass\n", "runner", "without_its_runner"),
    "runner, not noted": Plant("run", "facts = replace(\n                _facts_of(name, run, child.pid),\n                runner=None if program.runner is None else str(program.runner.path),\n            )", "facts = replace(_facts_of(name, run, child.pid), runner=None)", "runner",
                               "with_what_its_memory_has"),
    "memory, in the clear": Plant("definition", "return nonce + AESGCM(self.key).encrypt(nonce, plain, self._bound_to(count))", "return nonce + plain", "runs", "is_sealed_for_its_run"),
    "memory, of another run": Plant("definition", "return f\"{self.run} {count}\".encode()", "return f\"{count}\".encode()", "runs", "is_sealed_for_its_run"),
    "memory, of another time": Plant("definition", "return f\"{self.run} {count}\".encode()", "return self.run.encode()", "runs", "is_sealed_for_its_run"),
    "memory, by an empty key": Plant("definition", "cls(key, run) if len(key) == _KEY else None", "cls(key, run)", "runs", "is_sealed_for_its_run"),
    "memory, by one stream": Plant("definition", "nonce = secrets.token_bytes(_NONCE)", "nonce = bytes(_NONCE)", "runs", "is_sealed_for_its_run"),
    "memory, a key that others read": Plant("definition", "os.open(path, flags, 0o600)", "os.open(path, flags, 0o644)", "runs", "is_sealed_for_its_run"),
}  # fmt: skip
