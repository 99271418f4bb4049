"""Of the service's protocol without IO."""

from plant import Plant

_MODULE, _PART = "../service_protocol", "service_protocol"
PLANTS = {
    "protocol, more than was asked for": Plant(_MODULE, "            if came:\n                raise UnexpectedReply(\"nobody has asked for that\")\n", "", _PART, "fault_from_its_first_byte"),
    "protocol, more, by the loop": Plant("looker", "        except PagelogError:\n            self.close()\n", "        except PagelogError:\n            self._say(self.bodies)\n",
                                         "looks", "no_answer_is_left"),
    "protocol, more, over a connection": Plant("../connection", "if self._waiting or not self._protocol.is_settled:", "if self._waiting:", _PART, "is_not_used_again"),
    "protocol, closed meanwhile": Plant("../connection", "                    self._end_in_doubt(self._was_closed())  # as by who takes the replies\n", "", "connection",
                                       "who_takes_the_replies"),
    "protocol, too long": Plant(_MODULE, "        if length > self._longest:\n            raise FrameFault(length)\n", "", _PART, "too_long"),
    "protocol, cut": Plant(_MODULE, "        if len(came) < end:\n            return None\n", "", _PART, "cut_anywhere"),
    "protocol, cut in its length": Plant(_MODULE, "        if len(came) < _HEAD_SIZE:\n            return None\n", "", _PART, "byte_by_byte"),
    "protocol, not counted": Plant(_MODULE, "        self.awaited -= 1\n", "", _PART, "cut_anywhere"),
    "protocol, copied for each": Plant(_MODULE, "        del came[:end]\n", "        self._came = came[end:]\n", _PART, "not_copied_for_each"),
    "protocol, more are passed over": Plant(_MODULE, "count <= self.awaited and self", "self", _PART, "passed_over_at_once"),
    "protocol, others are passed over": Plant(_MODULE, " and self._came.startswith(frame * count)", "", _PART, "passed_over_at_once"),
    "protocol, a loader takes all": Plant("loading", "            if body != _DONE:\n", "            if False:\n", _PART, "first_refusal"),
}  # fmt: skip
