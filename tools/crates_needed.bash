# To source: the crates that are proved and built for one, with `here`, the repository's directory.

# Prints the crate and those of the repository that it depends on, in the order in which they are built: a crate after all crates that it uses,
# by the length of the longest way down.
crates_needed() { # CRATE
    awk -v program="$1" '
        function visit(name, used, count, i, level) {
            if (name in at) return
            at[name] = 0
            count = split(uses[name], used, " ")
            level = 0
            for (i = 1; i <= count; i++) if (used[i] in uses) {
                visit(used[i])
                if (at[used[i]] >= level) level = at[used[i]] + 1
            }
            at[name] = level
            print level ":" name
        }
        { sub(/#.*/, "") }
        index($0, ":") {
            split(substr($0, 1, index($0, ":") - 1), words, " ")
            uses[words[1]] = substr($0, index($0, ":") + 1)
        }
        END { if (program in uses) visit(program) }' "$here/crates.txt" | sort -s -t: -n -k1,1 | cut -d: -f2
}
