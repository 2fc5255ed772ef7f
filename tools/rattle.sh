# Sourced by the bash scripts that call the kit's compiler, rattle, themselves: for what they do rt has no command, or builds the libraries
# below anew. The words are those that rt gives rattle. $root is the repository's folder.

kit=$(dirname "$(rt doc)")

# The libraries on a crate's line of crates.txt.
uses() { sed -nE "s/^$1( +[a-z_=0-9]+)* *:(.*)/\2/p" "$root/crates.txt"; } # CRATE

# The repository's libraries below a crate.
below() { # CRATE
    awk -v top="$1" '
        function reach(crate,    n, i, dep) {
            if (crate in reached) return
            reached[crate]
            n = split(uses[crate], dep)
            for (i = 1; i <= n; i++) if (dep[i] in uses) reach(dep[i])
        }
        /^[a-z]/ { crate = $1; sub(/:.*/, "", crate); sub(/^[^:]*:/, ""); uses[crate] = $0 }
        END { reach(top); for (crate in reached) if (crate != top) print crate }
    ' "$root/crates.txt" | LC_ALL=C sort
}

# The words by which rattle reads a crate, from the crate's folder or a copy of it, one a line.
crate_words() { # CRATE
    local c top=src/lib.rt
    [ ! -f "$root/crates/$1/src/main.rt" ] || top=src/main.rt
    printf '%s\n' --crate-name "$1" "$top" --extern "std=$kit/rlibs/std.rlib" -L "dependency=$kit/rlibs"
    for c in $(uses "$1"); do
        if [ -d "$root/crates/$c" ]; then printf '%s\n' --extern "$c=$root/crates/$c/out/rlib/$c.rlib"
        else printf '%s\n' --extern "$c=$kit/rlibs/$c.rlib"; fi
    done
    for c in $(below "$1"); do printf '%s\n' -L "dependency=$root/crates/$c/out/rlib"; done
    printf '%s\n' --antt-project "$kit/rattle/logic/antt-project.json" --logic-built "$kit/logic_built" --links "$1="
    if grep -qE "^$1 +staticlib" "$root/crates.txt"; then printf '%s\n' --crate-type staticlib; fi
}

# Proves a crate and builds the libraries below it. With AFTER_CI=yes `rt ci` has just done so, and what it left in crates/*/out/rlib is
# taken as it stands.
proved() { # CRATE LOG
    [ "${AFTER_CI:-}" != yes ] || return 0
    (cd "$root/crates/$1" && rt check) >"$2" 2>&1 || { echo "$1 is not proved:"; tail -n 20 "$2"; return 1; }
}
