# The public items of a Rust file as rustfmt lays it out, one a line behind the section: a name, `Owner::name` for a variant, a field
# or a method, `Trait for Type` for what is derived or implemented.
function item(text) { print section "\t" text }
function derived(type,    i, n, traits) {
    n = split(derives, traits, /, */)
    for (i = 2; i <= n; i++) item(traits[i] " for " type)
}
/^mod test \{/ { exit }
/^#\[(cfg_attr\(.*, )?derive\(/ {
    sub(/^.*derive\(/, ""); sub(/\)+\]$/, "")
    derives = derives ", " $0
    next
}
/^pub use / { sub(/^.*::/, ""); sub(/;.*/, ""); item($0) }
/^(pub )?(struct|enum|type|const|fn|trait|mod|impl) / { variants = 0; owner = "" }
/^pub (mod|type|const|fn|trait|struct|enum) / {
    owner = $3
    sub(/[^A-Za-z0-9_].*/, "", owner)
    variants = $2 == "enum"
    item(owner)
    derived(owner)
}
/^impl / {
    gsub(/^impl | \{.*$|crate::x11_utils::|fmt::|std::/, "")
    owner = $0
    if (owner ~ / for /) item(owner)
}
/^(pub )?(struct|enum|type|const|fn|trait|mod) / { derives = "" }
/^    pub fn / { sub(/[^a-z0-9_].*/, "", $3); item(owner "::" $3) }
/^    pub [a-z_]+:/ { sub(/:.*/, "", $2); item(owner "::" $2) }
variants && /^    [A-Z]/ { sub(/[^A-Za-z0-9].*/, "", $1); item(owner "::" $1) }
