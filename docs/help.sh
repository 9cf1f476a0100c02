# What `./jasonrun help` writes: a screen for all commands, and one for each command; and what stands behind the line of a fault at a terminal. The
# script jasonrun reads this file.
# .ci/door compares it with the table of commands in crates/mas_top_words/specs, its numbers too.

# each option, with what it permits, and in brackets what counts if it is left out
options() {
    for option; do
        case $option in
            cycles) echo '  --cycles N   1 to 1000000 (1000)     cycles of each agent; together 2000000' ;;
            lead) echo '  --lead N     1 to 1000 (8)           cycles that an agent may be ahead' ;;
            depth) echo '  --depth N    1 to 10000 (500)        rules that a search is deep' ;;
            tries) echo '  --tries N    1 to 10000000 (100000)  beliefs and rules that a search tries' ;;
            level) echo '  --level L    say, acts, rules (acts) what a trace shows' ;;
            workers) echo '  --workers N  1 to 64 (4)             threads; with 1 each report is the same' ;;
            pool) echo '  --pool P     ready, steal (ready)    one queue for all, or one for each thread' ;;
            site_level) echo '  --level L    acts, rules (acts)      what a trace shows' ;;
            site_workers) echo '  --workers N  1 to 2 (2)              threads, for both sites together' ;;
        esac
    done
}

all_commands() {
    cat <<'END'
jasonrun runs agents written in AgentSpeak, and writes a report of their run.

  jasonrun run PROJECT              run a project, or one agent (a file .asl)
  jasonrun replay PROJECT SCHEDULE  run it along the order of turns in a file
  jasonrun check PROJECT REPORT     write yes or no: is it the report of a run?
  jasonrun demo K                   run K agents that add to one tally
  jasonrun renew PROJECT REPORT     write such a report anew, in the form of now
  jasonrun record PROJECT FILE      run it, and keep each turn in FILE
  jasonrun resume PROJECT FILE      go on from FILE, as a crash left it
  jasonrun sites P Q                run two projects that write to each other
  jasonrun lint PROJECT             write yes, or the first goal without a plan

Options: their values, (what counts if left out), their meaning
END
    options cycles lead depth tries level workers pool
    cat <<'END'

jasonrun help COMMAND shows one command and its options; jasonrun --version.
Example: jasonrun run examples/hello/hello.mas2j --level say --workers 1
More: docs/TUTORIAL.md, docs/LANGUAGE.md; beside it: jasonlook, explore, chart
END
}

# Shows a screen; its status is 1 where there is no such command.
help_of() {
    case $1 in
        '')
            all_commands
            return
            ;;
        run)
            cat <<'END'
jasonrun run PROJECT [OPTIONS]

Runs the agents of a project, and writes the report of the run at its end.
PROJECT is a file .mas2j, beside which its sources and its world stand. A name
that ends in .asl stands for a project of one agent, solo, that has no world.
END
            set -- run cycles lead depth tries level workers pool
            ;;
        replay)
            cat <<'END'
jasonrun replay PROJECT SCHEDULE [OPTIONS]

Runs a project along an order of turns, and writes the report of that run.
SCHEDULE is a file of two lines, those that end a report (tail -n 2). With the
options of the first run it is the first report again, byte for byte.
END
            set -- replay cycles lead depth tries level
            ;;
        check)
            cat <<'END'
jasonrun check PROJECT REPORT

Writes yes or no: whether the file REPORT is the report of a run of the project,
with the options and the order of turns that stand in it. It has no options.
END
            ;;
        demo)
            cat <<'END'
jasonrun demo K [OPTIONS]

Runs K agents, 1 to 200, which together add to one tally, and writes four lines:
what it is, the agents, the tally at the end, and how many agents ended quietly.
END
            set -- demo workers
            ;;
        renew)
            cat <<'END'
jasonrun renew PROJECT REPORT

Where check writes yes, writes the report of the same run in the form of now;
else writes no. It has no options.
END
            ;;
        record)
            cat <<'END'
jasonrun record PROJECT FILE [OPTIONS]

Runs a project and writes its report, as run does. Each turn is in FILE, and on
the disk, before it counts. What FILE held is lost.
END
            set -- record cycles lead depth tries level workers
            ;;
        resume)
            cat <<'END'
jasonrun resume PROJECT FILE [OPTIONS]

Makes the turns that are in FILE, as a crash of record or resume left it, goes
on from there to the end of the run, and writes its report. The project and the
options have to be those of record.
END
            set -- resume cycles lead depth tries level workers
            ;;
        sites)
            cat <<'END'
jasonrun sites P Q [OPTIONS]

Runs two projects as two sites, each with a world of its own. Their agents write
to one another by name, so no name may be in both. Writes both reports, and the
messages that were still on the way.
END
            set -- sites cycles lead depth tries site_level site_workers
            ;;
        lint)
            cat <<'END'
jasonrun lint PROJECT

Writes yes where each goal that the sources name has a plan that covers it, else
the first goal that has none. Nothing is run. It has no options.
END
            ;;
        *) return 1 ;;
    esac
    command=$1
    shift
    if [ $# -gt 0 ]; then
        echo
        echo 'Options stand anywhere behind the command, as --lead 8 or --lead=8:'
        options "$@"
    fi
    echo
    case $command in
        run) echo 'Example: jasonrun run examples/queens/queens.mas2j --level say --tries=200000' ;;
        replay) echo 'Example: jasonrun replay examples/race/race.mas2j examples/race/bob_first.txt' ;;
        check) echo 'Example: jasonrun check examples/race/race.mas2j report.txt' ;;
        demo) echo 'Example: jasonrun demo 25 --workers 2' ;;
        renew) echo 'Example: jasonrun renew examples/race/race.mas2j report.txt > newer.txt' ;;
        record) echo 'Example: jasonrun record examples/race/race.mas2j race.rec' ;;
        resume) echo 'Example: jasonrun resume examples/race/race.mas2j race.rec' ;;
        sites)
            echo 'Example: (in examples/harbour)'
            echo '  jasonrun sites harbour.mas2j ships.mas2j --workers 1 --cycles 12'
            ;;
        lint) echo 'Example: jasonrun lint examples/auction/auction.mas2j' ;;
    esac
}

# What is wrong with a word that is no command.
word_of() {
    case $1 in
        '') echo 'a command is missing' ;;
        where | hints | mind | messages | drops | page) echo "$1 is a command of jasonlook: ${call-./}jasonlook $1" ;;
        jasonlook | explore | chart) echo "$1 is a program of its own: ${call-./}$1" ;;
        *) echo "there is no command $1" ;;
    esac
}

# A status and a command, in plain words: what happened, and the section of docs/LANGUAGE.md to read on.
hint_of() {
    section='The end of the program'
    case $1:$2 in
        1:lint) section=Lint && set -- 'No plan covers the goal that the line names: initial goal K, or item I in the body of plan K.' ;;
        1:*) section=Check && set -- 'The file is not the report of a run of this project, as its files are now.' ;;
        2:*)
            section='Commands and options'
            if [ -n "$2" ] && help_of "$2" >/dev/null; then
                set -- "The names, the options or a value among them are none that $2 has: ${call-./}jasonrun help $2 shows them."
            else
                set -- "$(word_of "$2"); ${call-./}jasonrun help shows all commands."
            fi
            ;;
        3:*) section='What is refused' && set -- 'There is no such file. A project ends in .mas2j, a source in .asl; the files of a project stand in its own folder.' ;;
        4:*) set -- 'A file could not be read. Is it a folder or a pipe, or may you not read it?' ;;
        5:*) set -- 'The output could not be written, and is cut off. Is the disk full, or did its reader end?' ;;
        6:*)
            section='What is refused'
            set -- 'Nothing ran. The number counts clauses from 1, dot by dot (in a project its pieces, in a schedule lines or turns),' \
                'but with byte, string, comment and number it counts bytes from 0.' \
                "${call-./}jasonlook where PROJECT shows each such place with its line, and why."
            ;;
        7:*) section='What is refused' && set -- 'Something is too large. The word behind limit says what; the number says how many bytes there may be, which clause it is, or how many there are.' ;;
        8:*) section='When something fails' && set -- 'The report is written, but the search of an agent was cut off: --tries and --depth give it more.' ;;
        9:*) set -- 'Memory was short.' ;;
        11:*) section='Record and resume' && set -- 'The file of the recorded run could not be made, read or written, or another run has it. What was made until then is in it.' ;;
        *) return ;;
    esac
    printf '  %s\n' "$@" "See ${docs-docs}/LANGUAGE.md, \"$section\"."
}
