"""What stands in the book, in which order, and which parts a call does without."""

# A chapter: its page, its title, what it says, and its files as crate and module, in reading order.
FRONT = [
    ("world", "The world", "One record of lists: what the server is set up with, its sessions, open forks, locks and volumes. And what a volume is.",
     [("afp_serial", "Household"), ("afp_serial", "Limits"), ("afp_serial", "World"), ("afp_serial", "Users"),
      ("volume_spec", "VolumeState"), ("volume_spec", "Order"), ("volume_spec", "Rights")]),
    ("house", "The house and the status block", "For which faults what a server is set up with is refused, and the block that tells of it before a login.",
     [("afp_serial", "HouseFault"), ("afp_serial", "Faultless"), ("afp_serial", "StatusWords"), ("afp_serial", "StatusBlock")]),
    ("soundness", "Soundness", "What holds of the world, and of each volume in it, at each place of a history.",
     [("afp_serial", "Sound"), ("afp_serial", "Ranges"), ("afp_serial", "LawfulCall"), ("volume_spec", "SoundVolume"), ("volume_spec", "TypedVolume")]),
    ("frames", "Frames", "Frames of the Data Stream Interface, their bytes, and streams of them, however they are cut.",
     [("dsi_frame", name) for name in ("Frame", "Stream", "Replies", "Buffered", "Deframe", "Filling")]),
    ("sessions", "Sessions", "How a session is opened, when its link is silent, the token by which a client comes back to it, and the answers that it keeps.",
     [("dsi_session", "Options"), ("dsi_session", "Pulse"), ("dsi_session", "RequestIds"), ("afp_serial", "Token"), ("afp_base", "Cached"),
      ("afp_serial", "KeptAnswers")]),
    ("answers", "Answers", "What an ask is told, and the world behind it. The steps before a call's row, and the row of each call.",
     [("afp_serial", "Answer"), ("afp_serial", "Rows"), ("afp_serial", "Answered"), ("afp_serial", "ReplyKinds")]),
    ("history", "History", "The asks of all links in one order, what each was told there, and what a teller shows of it.",
     [("afp_serial", "History"), ("afp_serial", "Shown"), ("afp_serial", "Went")]),
]
RECORDS = [
    ("records", "Records", "The records that a volume is kept in, of the version that is written and of the older one, and which records are bad.",
     [("volume_keeper_records", "Records"), ("volume_keeper_records", "Shape"), ("volume_keeper_records", "Image"),
      ("volume_keeper_records", "FromTables"), ("volume_keeper_records", "KeyOrder"), ("volume_keeper_records", "FirstBad"),
      ("volume_keeper_records", "Loaded"), ("volume_keeper_records", "Migration")]),
]
LAWS = [
    ("laws-histories", "Laws of histories", "What holds over whole histories of the serial file server.",
     [("afp_serial", name) for name in ("Laws", "SessionLaws", "SessionViews", "SweepLaws", "KeptLaws", "LoginLaws", "CommitLaws", "IdLaws", "ForkLaws",
                                        "ForkHistory", "WriteLaws", "HistoryLaws", "ListReply", "ParmsReplies")]),
    ("laws-volumes", "Laws of a volume", "What each call keeps of a volume, its lists, its values, its forks and its desktop database.",
     [("volume_spec", name) for name in ("Laws", "TreeSteps", "VolumeCalls", "Edit", "EditLaws", "EditRanges", "ListLaws", "ValueLaws", "ForkLaws",
                                         "DesktopLaws")]),
    ("laws-bytes", "Laws of requests and replies", "One request and one reply for given bytes, and what is written is read again.",
     [("afp_calls_grammar", "grammar.Call"), ("afp_calls_grammar", "grammar.Spelt"), ("afp_calls_grammar", "grammar.Laws"), ("afp_replies", "Replies"),
      ("afp_replies", "Fitting"), ("afp_replies", "Requested"), ("dsi_session", "OptionLaws")]),
    ("laws-links", "Laws of links", "What one link comes to: its frames, what it asks and writes, and why it ends; and the links of a door.",
     [("afp_server", f"link.{name}") for name in ("Script", "OpenSession", "Calls", "GetStatus", "CloseSession", "Did", "Trace", "LinkRun", "Requests",
                                                  "Written", "Passing", "Progress", "Tally", "Wire", "Complete")]
     + [("afp_server", f"connection.{name}") for name in ("Turn", "Standing", "Connection", "Whole")] + [("afp_server", "doors.Served")]),
    ("laws-once", "Laws of breaks", "Each command of a client has its effect once, in order, however often its link breaks.",
     [("once_across_breaks", f"once.{name}") for name in ("Messages", "Server", "Run", "Once", "Frames", "UnderWay", "Fits", "Bytes", "Dsi", "Serial",
                                                          "Effects", "Tokens", "Premises", "Laws")]
     + [("once_across_breaks", "same.Steps"), ("once_across_breaks", "same.Laws")]),
    ("laws-once-code", "Laws of breaks, of the code", "The real client and the real server ends do what the laws of breaks take them to do.",
     [("once_across_breaks_code", name) for name in ("run.Things", "run.Doings", "run.Premises", "run.Mirrors", "run.Laws", "client.Playing", "client.Runs")]),
    ("laws-keepers", "Laws of keepers", "What a keeper keeps, when it fails, and that a volume's keeper holds the image of that volume.",
     [("record_keeper", name) for name in ("Records", "Causes", "Settling", "Planned", "Reading")]
     + [("volume_keeper_records", "Laws"), ("volume_changes", "records.Laws"), ("volume_keeper", "loading.Loading")]
     + [("volume_keeper", f"kept.{name}") for name in ("Kept", "Commits", "Changing", "ForkChanging", "Loading", "LineLaws")]
     + [("sqlite_durable", name) for name in ("Table", "Kept", "Durable", "Turned")]),
    ("laws-stops", "Laws of stops", "What a stop at any instant leaves of a volume in a file: the volume at the end of the history, or at one call that was told MiscErr. No code is tied to it yet.",
     [("stop_places", name) for name in ("Stops", "LoadedFrom", "Laws")]),
    ("laws-client", "Laws of the client", "What a client writes and reads on its links, one after the other, when it dials, and how its calls end.",
     [("afp_client", f"session.{name}") for name in ("State", "Opening", "Happens", "Takes", "Run", "Laws", "TokenLaws")]
     + [("afp_client", f"links.{name}") for name in ("Links", "OnLink", "Coming", "Ends", "History", "Talk", "Laws")]),
    ("laws-mirror", "Laws of a mirror", "A volume copied into an empty one of another server: which call is asked next, what follows its answer, and when two volumes are alike.",
     [("afp_mirror_walk", name) for name in ("Standing", "Asks", "Follows", "Table", "Alike", "Ports", "Steps")]),
    ("laws-desk", "Laws of the desk", "Threads that ask one core in turn share one history; what passes show, and what a closing tells.",
     [("afp_desk", f"desk.{name}") for name in ("Rule", "Totals", "Calls", "Plays", "Passes", "StandsFor")]
     + [("afp_desk", f"workers.{name}") for name in ("Workers", "Staffs", "Gathers", "Doors", "Keeping", "House")]),
]
GROUPS = [("Session", "Session calls"), ("Volume", "Volume calls"), ("Directory", "Directory calls"), ("File", "File calls"), ("Fork", "Fork calls"),
          ("Desktop", "Desktop calls")]

INTRODUCTION = ("Each definition stands under its comment, with its place; each word in it is a link to its own definition. A call is refused with the "
                "first of its refusals that holds, and else it has its effect. Words that three calls or more share stand in the appendix, unless these are "
                "of one family.")
# How definitions are written, for a reader who has not met their language.
FORMS = [
    ("f : A → B → C", "f takes an A and a B, and gives a C"), ("f x y", "f of x and y"), ("λ x y. e", "the function that gives e for x and y"),
    ("f (Some x) = ..", "what f is of a value of this form; the first line that fits decides"),
    ("x.name", "the field of a record"), ("record { a = 1; b = 2 }", "a record of these fields"), ("record w { a = 1 }", "w with another a"),
    ("[]", "the empty list"), ("x ∷ xs", "a list that begins with x; so a ∷ b ∷ [] has two elements"), ("xs ++ ys", "one list behind the other"),
    ("(a, b)", "a pair; p.0 and p.1 are its parts"), ("None, Some x", "nothing, or x"), ("Ok x, Err c", "a value, or why there is none"),
    ("suc n", "the number behind n; zero is 0"), ("pos n, negsuc n", "the whole numbers n and -n - 1"), ("a == b", "whether they are equal, as true or false"),
    ("a ≡ b", "the statement that they are equal"), ("A × B, A ⊎ B", "both statements, one of them"),
    ("(x : A) → B", "B holds of each x; (x : A) × B: of some x"),
    ("⊥", "what never holds"), ("Type 0", "what a statement or a type is"), ("abbrev, unfoldable", "how proofs see a definition; readers can pass over them"),
]
BESIDE = ["docs/PROTOCOL.md", "docs/PROMISES.md", "docs/GLOSSARY.md", "docs/CAPTURES.md", "docs/ARCHITECTURE.md"]

# What a call does without, and why. A part that is missing and does not stand here is a fault.
EXCEPTIONS = {
    ("FPLogout", "refusals"): "a session may always end",
    ("FPGetSrvrInfo", "refusals"): "it tells what stands open before a login",
    ("FPGetSrvrParms", "refusals"): "each user is told the volumes",
    ("FPGetSessionToken", "refusals"): "each session has a token",
}
# Codes that captures tell and that no row has, and why.
OTHER_CODES = {"Ok": "the call has its effect", "MiscErr": "a keeper failed", "NoMemory": "there was no memory"}

# A word that fewer calls than this use stands on the pages of those calls; the others stand in the appendix.
SHARED_FROM = 3
SAMPLE_CALL = "Rename"
SAMPLE = "docs/book-sample.md"
RUNS_ROW = ("afp_core_state", "Running", "RunsRow")
GIVES, PUTS = "Gives", "PutsAll"
