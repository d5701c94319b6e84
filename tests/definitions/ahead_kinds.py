"""The kinds of rows of sessions that look ahead: which requests are cancelled, and what they are replied."""
import json

import kinds
import terms

ROLES = {"request": "Request", "cancellation": "Cancellation"}


def id_of(value):
    return f"(Name {terms.utf8(value) if value else '[]'})" if isinstance(value, str) else f"(Number {terms.integer(value)})"


def cancelled(values):
    return terms.many(terms.optional(value, id_of) for value in values)


class CancelledRoles(kinds.Kind):
    """What bodies are to each other, and which of them are cancelled."""

    crate = "lookahead"
    module = "CancelledRows"
    says = "Bodies that a piece completes, by what they are to those before them, and which are cancelled; from outside."
    head = """
use Rattle.std.specs.Prelude.{◌≡◌, pos, neg_ℤ, List, [], ◌∷◌, Option, Some, None, codes, refl}
use Rattle.lsp_messages.specs.declared.message.Id.TheVariants.{Number, Name}
use Rattle.lookahead.specs.Cancelled.{cancelled_from}
use Rattle.lookahead.specs.declared.role.Role.TheVariants.{Request, Cancellation, Exit, Other}
"""

    def fits(self, row):
        return "roles" in row

    def role(self, told):
        return told.capitalize() if isinstance(told, str) else f"{ROLES[told[0]]} {id_of(told[1])}"

    def lemma(self, row):
        roles = [told for it in row["roles"] for told in (it["each"] * it["times"] if isinstance(it, dict) else [it])]
        wanted = [None] * len(roles)
        for place, value in row["cancelled"]:
            wanted[place] = value
        return f"cancelled_from 0 ({terms.many(self.role(it) for it in roles)}) ≡ {cancelled(wanted)}", "refl"


class CancelledBodies(kinds.Kind):
    """Bodies that one piece completes, and which of them are cancelled."""

    crate = "lookahead"
    module = "BodyRows"
    says = "Bodies that a piece completes, as a client writes them, and which are cancelled; from outside."
    unfolding = "serde_json_on_literals is_utf8 chars encode_utf8"
    head = """
use Rattle.std.specs.Prelude.{◌≡◌, pos, neg_ℤ, List, [], ◌∷◌, Option, Some, None, codes, refl}
use Rattle.std.specs.Char.{encode_utf8}
use Rattle.std.specs.Str.{is_utf8, chars}
use Rattle.serde_json.proofs.OnLiterals.{serde_json_on_literals}
use Rattle.lsp_messages.specs.declared.message.Id.TheVariants.{Number, Name}
use Rattle.lookahead.specs.Cancelled.{cancelled_in}
"""

    def fits(self, row):
        return "bodies" in row and "cancelled" in row

    def lemma(self, row):
        bodies = [it if isinstance(it, str) else json.dumps(it, separators=(",", ":")) for it in row["bodies"]]
        wanted = [None] * len(bodies)
        for place, value in row["cancelled"]:
            wanted[place] = value
        return f"cancelled_in ({terms.many(terms.utf8(it) for it in bodies)}) ≡ {cancelled(wanted)}", "refl"


class AheadReplies(kinds.Kind):
    """Messages of which some are cancelled, and what is replied."""

    crate = "lookahead"
    module = "AheadRows"
    says = "Messages of a session, of which some are cancelled, and the replies; from outside."
    head = """
use Rattle.std.specs.Prelude.{◌≡◌, ℕ, pos, neg_ℤ, true, List, [], ◌∷◌, Option, Some, None, codes, refl}
use Rattle.std.specs.FinMap.{empty}
use Rattle.scheme_model.specs.Texts.{Offsets, Utf16}
use Rattle.scheme_model.specs.Session.{Answers, Arrows, Ask, BadRequest, Capabilities, Clean, Early, Error, Exit, Id, Initialize, Message, Name, Notice, Number, Other, Rename, Renamed, Reply, Request, Result, Shutdown, UnknownMethod, begin}
use Rattle.lookahead.specs.Ahead.{run_ahead}

-- no position is looked at; each question has an answer of its own
abbrev o : Offsets
o encoding text position = 0

abbrev a : Answers ℕ
a = record { null = 0; query = λ encoding texts uri position query. 1; rename = λ encoding texts uri position new_name. 2; lists = λ encoding before after uri. 3 }

abbrev q : Id → Message
q id = Request id (Ask [] (record { line = 0; character = 0 }) Arrows)

abbrev n : Id → Message
n id = Request id (Rename [] (record { line = 0; character = 0 }) [])

abbrev e : Id → ℕ → List ℕ → Reply ℕ
e id code text = Error (Some id) (neg_ℤ (pos code)) text
"""

    MESSAGES = {"initialize": "Request {} (Initialize true Utf16)", "shutdown": "Request {} Shutdown", "arrows": "q {}", "rename": "n {}", "unknown": "UnknownMethod {}", "bad": "BadRequest {}"}
    ENDS = {None: "None", "clean": "Some Clean", "early": "Some Early"}

    def fits(self, row):
        return "messages" in row

    def message(self, told):
        if isinstance(told, str):
            return f"Notice {told.capitalize()}, None"
        kind, value, *more = told
        return f"{self.MESSAGES[kind].format(id_of(value))}, {'Some ' + id_of(value) if more == ['cancelled'] else 'None'}"

    def reply(self, told):
        kind, value, *more = told
        if kind == "error":
            return f"e {id_of(value)} {-more[0]} {terms.utf8(more[1])}"
        return {"capabilities": "Capabilities {} true Utf16", "null": "Result {} 0", "answer": "Result {} 1", "renamed": "Renamed {} 2"}[kind].format(id_of(value))

    def lemma(self, row):
        run = f"run_ahead o a ({terms.many(self.message(it) for it in row['messages'])}) (begin empty)"
        replies = terms.many(self.reply(it) for it in row["replies"])
        return f"(({run}).replies ≡ {replies}) × (({run}).end ≡ {self.ENDS[row['end']]})", "(refl, refl)"


KINDS = [CancelledRoles(), CancelledBodies(), AheadReplies()]
