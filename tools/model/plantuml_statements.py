"""The forms of PlantUML's statements but arrows, in the order in which the program tries them."""

from plantuml_words import COLOUR, LINK, NAME, NAMES, WORD, form

KINDS = rb"participant|actor|boundary|control|entity|queue|database|collections"
PARTICIPANT = form(
    rb"(?:(?:create\s+)?(?:" + KINDS + rb")|create)\s+"
    rb"(?: \"(?P<label>[^\"]+)\"\s+as\s+(?P<word>" + WORD + rb")"
    rb" | (?P<first>" + WORD + rb")\s+as\s+\"(?P<quoted>[^\"]+)\""
    rb" | (?P<long>" + WORD + rb")\s+as\s+(?P<short>" + WORD + rb")"
    rb" | (?P<name>" + NAME + rb") )"
    rb"(?: \s | <<.*>> | order\s+-?\d+ | " + LINK + rb" | \#[^\s]+ )*(?P<opens>\[)?"
)
NOTE = form(
    rb"(?:&\s*)?/?\s*[hr]?note\s*(?:<<.*?>>)?\s*"
    rb"(?: (?:left|right|over)(?:\s+of)?\s+(?P<names>" + NAMES + rb") | left | right | top | bottom | (?P<across>acc?ross) )"
    rb"\s*" + COLOUR + rb"?\s*" + LINK + rb"?\s*(?::(?P<text>.*))?"
)
REFERENCE = form(
    rb"ref(?:\#\w+)?\s+over\s+(?P<names>" + NAMES + rb")\s*" + COLOUR + rb"?\s*(?::(?P<text>.*))?"
)
GROUP = form(rb"(?:&\s*)?(?P<word>opt|alt|loop|par2?|break|critical|group)(?:\#\w+)?(?:\s.*)?")
BRANCH = form(rb"(?:&\s*)?(?:else|also)(?:\s.*)?")
END = form(rb"(?:&\s*)?end(?:\s.*)?")
RETURN = form(rb"(?P<row>&\s*)?return(?:\s+\#\w+(?=\s))?(?P<text>\s.*)?")
ACTIVATION = form(rb"(?P<verb>activate|deactivate|destroy)\s+(?P<name>" + NAME + rb")(?:\s*\#\w+)*")
BARE_DEACTIVATION = form(rb"deactivate")
SHORT_ACTIVATION = form(rb"(?P<name>" + WORD + rb")\s*(?P<verb>\+\+|--)\s*(?:\#\w+)?")
AUTOACTIVATE = form(rb"autoactivate\s+(?P<word>on|off)")
BOX = form(rb"box(?:\s.*|\#.*)?")
BOX_END = form(rb"end\s*box")
DIVIDER = form(rb"==.*==")
DELAY = form(rb"(?:\.\.\.|\xe2\x80\xa6).*")

# What means nothing, as it is about how the diagram looks: what comes before arrows, and what comes behind them.
EARLY_LOOKS = form(
    rb"(?: title | mainframe | caption | (?:(?:left|right|center)\s*)?(?:header|footer) )(?:\s*:\s*|\s+).*"
    rb" | skinparam(?:locked)?\s+[\w.]*(?:<<.*>>)?[\w.]*\s+[^{}]*"
)
LOOKS = form(
    rb"(?: skin | allow_?mixing | scale | rotate | minwidth | sprite | url | autonumber | autonewpage | hide | show )"
    rb"(?:\s.*)?"
    rb" | ignore\s*newpage | @?newpage(?:[\s:].*)? | (?:hide\s*|show\s*)?footbox(?:\s+(?:on|off))? | \|\|\d*\|+"
    rb" | \{\w+\}\s*<->\s*\{\w+\}\s*(?::.*)?"
)
# Blocks of lines that look, each with the line that ends it.
BLOCKS_OF_LOOKS = [
    (form(rb"title"), form(rb"end\s?title")),
    (form(rb"legend(?:\s.*)?"), form(rb"end\s?legend")),
    (form(rb"(?:(?:left|right|center)\s*)?header"), form(rb"end\s?header")),
    (form(rb"(?:(?:left|right|center)\s*)?footer"), form(rb"end\s?footer")),
    (form(rb"<style>"), form(rb"</style>")),
    (form(rb"sprite\s.*\{"), form(rb"end\s?sprite|\}")),
]
BRACES = form(rb"skinparam(?:locked)?(?:\s.*)?\{")
CLOSING_BRACE = form(rb"\}")
NOTE_END = form(rb"end\s?[hr]?note")
REFERENCE_END = form(rb"end\s?(?:ref)?")
PARTICIPANT_END = form(rb"\]")
