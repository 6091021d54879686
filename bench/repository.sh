# Makes a repository of copies, proves, builds and runs a program in it, and takes the best of the times
# that the program prints. The other scripts source it from the top of the repository; it isn't run by
# itself.
#
# They set `program`, which is the program's name, and `libraries`, which are those that it stands on,
# lowest first, and they print the program by `write_program`. The repository is the folder `work`, which
# goes when they end. A line that the program prints names what is timed, how many calls were made, and the
# nanoseconds that they took.
export LC_ALL=C

work=$(mktemp -d)
trap 'rm -rf "$work"' EXIT

# A repository of the libraries and the program. A library without a folder here is the toolchain's.
make_repository() {
    for library in $libraries; do
        [ -d "crates/$library" ] || continue
        mkdir -p "$work/crates/$library"
        for part in src specs proofs; do
            [ ! -d "crates/$library/$part" ] || cp -r "crates/$library/$part" "$work/crates/$library"
        done
        grep "^$library:" crates.txt >>"$work/crates.txt"
    done
    mkdir -p "$work/crates/$program/src"
    echo "$program: $libraries" >>"$work/crates.txt"
    write_program >"$work/crates/$program/src/main.rt"
}

# The function `peak`, for a program that uses `std::fs` and `std::io`: it prints the most memory that the
# process has held.
write_peak() {
    cat <<'END'

/// Prints the most memory that this process has held, in KB.
fn peak(rt: &HostRuntime, when: &str) -> io::Result<()> {
    let text = fs::read_to_string(rt, "/proc/self/status")?;
    for line in text.as_str().lines() {
        if let Some(rest) = line.strip_prefix("VmHWM:") {
            println!(rt; "peak {when},{}", rest.trim())?;
        }
    }
    Ok(())
}
END
}

# Proves, builds and runs the program.
take_times() {
    echo "Proving and building the libraries and the program. This takes some minutes." >&2
    if ! (cd "$work/crates/$program" && rt run) >"$work/times" 2>"$work/build"; then
        tail -n 20 "$work/build" >&2
        echo "bench/${0##*/}: there are no times" >&2
        exit 1
    fi
}

# What was timed, in order, each with the nanoseconds of a call in its best run.
best_times() {
    awk -F , '
        !($1 in best) { order[++count] = $1; best[$1] = $3 / $2 }
        $3 / $2 < best[$1] { best[$1] = $3 / $2 }
        END {
            for (place = 1; place <= count; place++)
                printf "%s,%.3f\n", order[place], best[order[place]]
        }' \
        "$work/times"
}
