"""What the bindings say of a group of exports, an integer type or a family, and of the structs that these answer."""
from kinds import BY_NAME
from table import Fault, families_now


def family_of(group):
    for family in families_now():
        if family.record.get("about") and (family.name == "integers" if group in BY_NAME else group in family.record.get("of").split()):
            return family
    raise Fault("the exports pb_%s_* are of no family that has a sentence (`about`) in generate/operations" % group)


def about(group, field="about"):
    """A sentence on an integer type or a family; the Rust crate's own (`module`) where it has one."""
    record = family_of(group).record
    text = record.get(field) or record.get("about")
    return text.format(**BY_NAME[group].sentence_words()) if group in BY_NAME else text


def about_struct(group, struct):
    text = family_of(group).record.get("struct " + struct.own_name)
    if not text:
        raise Fault("the struct %s that pb_%s_* answer has no sentence (`struct %s` in generate/operations)" % (struct.own_name, group, struct.own_name))
    return text
