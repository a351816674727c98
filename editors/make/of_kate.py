"""The syntax of Kate, of KDE's other editors and of pandoc."""

RULES = r'''   <context name="line" attribute="Normal Text" lineEndContext="#stay">
    <DetectSpaces/>
    <RegExpr attribute="Label" context="#stay" String="[A-Za-z_]\w*:" firstNonSpace="true"/>
    <DetectChar attribute="Comment" context="comment" char=";"/>
    <RegExpr attribute="Control" context="condition" String="\b(%s)\b"/>
    <keyword attribute="Directive" context="#stay" String="directives"/>
    <keyword attribute="Memory" context="#stay" String="memory"/>
    <keyword attribute="Arithmetic" context="#stay" String="arithmetic"/>
    <keyword attribute="Control" context="#stay" String="control"/>
    <keyword attribute="Wide" context="#stay" String="wide"/>
    <RegExpr attribute="Register" context="#stay" String="\b(r([0-9]|[12][0-9]|3[01])|t[0-7])\b"/>
    <RegExpr attribute="Number" context="#stay" String="-?\b(0x[0-9A-Fa-f]+|[0-9]+)\b"/>
    <RegExpr attribute="Lookahead" context="#stay" String="@[0-7]\b"/>
    <DetectIdentifier/>
   </context>
   <context name="comment" attribute="Comment" lineEndContext="#pop"/>
   <context name="condition" attribute="Normal Text" lineEndContext="#pop" fallthroughContext="#pop">
    <DetectSpaces/>
    <keyword attribute="Condition" context="#pop" String="conditions"/>
   </context>
'''

STYLES = (("Normal Text", "dsNormal"), ("Comment", "dsComment"), ("Label", "dsFunction"), ("Directive", "dsPreprocessor"),
          ("Memory", "dsDataType"), ("Arithmetic", "dsKeyword"), ("Control", "dsControlFlow"), ("Wide", "dsKeyword"),
          ("Condition", "dsConstant"), ("Register", "dsVariable"), ("Number", "dsDecVal"), ("Lookahead", "dsAttribute"))

HEAD = '''<?xml version="1.0" encoding="UTF-8"?>
<!DOCTYPE language>
<!-- made by editors/make of the assembler's table of names -->
<language name="Tera MTA" section="Assembler" version="1" kateversion="5.0" extensions="*.mta" mimetype="text/x-mta" casesensitive="1" author="mta_sim">
 <highlighting>
'''

TAIL = ''' </highlighting>
 <general><comments><comment name="singleLine" start=";"/></comments><keywords casesensitive="1" weakDeliminator="."/></general>
</language>
'''


def syntax(names):
    def with_each(words, ends):
        return [word + end for word in words for end in ("", *ends)]

    lists = {"memory": with_each(names.memory, [f".{it}" for it in names.access]) + names.plain_memory,
             "arithmetic": with_each(names.arithmetic, [".T"]), "control": names.control, "wide": names.wide,
             "conditions": names.conditions, "directives": [f".{it}" for it in names.directives]}
    text = HEAD
    for name, words in lists.items():
        text += f'  <list name="{name}">\n' + "".join(f"   <item>{it}</item>\n" for it in words) + "  </list>\n"
    text += "  <contexts>\n" + RULES % "|".join(names.asking) + "  </contexts>\n  <itemDatas>\n"
    text += "".join(f'   <itemData name="{name}" defStyleNum="{style}"/>\n' for name, style in STYLES)
    return text + "  </itemDatas>\n" + TAIL
