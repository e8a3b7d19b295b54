# Counts the marks that a picture must have, from a history and the harness's answers alone, pasted line by line with a
# tab between them. Prints 'KIND COUNT' for each kind of mark, 'delivers TICK MODULE STREAM:PAYLOAD' for each delivery, and
# 'drops TICK MODULE NUMBER' for each drop.
BEGIN {
    FS = "\t"
    now = 0
    kinds = "request_taken request_refused given_data given_confirmation given_abort given_plain nothing sending_full" \
        " sending_short unsent heard_taken heard_other heard_refused missed delivery drop death" \
        " did_new did_duplicate did_confirmed did_confirmed-again did_abort-pending did_dropped did_nothing-to-drop" \
        " did_delivered window all none differs open"
    split("data confirmation abort plain", code_names, " ")
}
{
    split($1, ask, " ")
    words = split($2, answer, " ")
}
ask[1] == "modules" { modules = ask[2] }
ask[1] == "setup" && $2 == "0" {
    role[ask[3], ask[2]] = ask[4] ? "sends" : "receives"
    class[ask[3], ask[2]] = ask[5]
    hold[ask[3], ask[2]] = ask[6] + ask[9]
}
ask[1] == "request" {
    count[$2 == "0" ? "request_taken" : "request_refused"]++
    if ($2 == "0" && class[ask[3], ask[2]] == 2) {
        count["window"]++
        window++
        stream[window] = ask[3]
        payload[window] = ask[4]
        from[window] = NR
        until[window] = now + hold[ask[3], ask[2]] + 1
    }
}
ask[1] == "give" {
    if (words == 4) {
        count["given_" code_names[answer[3] % 4 + 1]]++
        owner[answer[2]] = ask[2]
    } else
        count["nothing"]++
}
ask[1] == "full" || ask[1] == "short" {
    if ($2 == "dead")
        count["unsent"]++
    else {
        count["sending_" ask[1]]++
        others = 0
        for (m = 0; m < modules; m++)
            others += m != owner[ask[2]] && !(m in died)
        heard = $2 == "-" ? 0 : words
        count["missed"] += others - heard
        for (w = 1; w <= heard; w++) {
            parts = split(answer[w], part, ":")
            count[part[2] == 0 ? "heard_taken" : part[2] == 5 ? "heard_other" : "heard_refused"]++
            if (part[2] == 0)
                count["did_" part[3]]++
            if (part[3] == "delivered")
                delivers(now, part[1], part[4], part[5], 0)
            if (part[3] == "dropped")
                drops(now, part[1], 1)
        }
    }
}
ask[1] == "tick" || ask[1] == "ticks" {
    for (w = 2; w <= words; w++) {
        parts = split(answer[w], part, ":")
        tick = parts == 4 ? part[1] : answer[1]
        if (part[parts - 1] == "dropped")
            drops(tick, part[parts - 2], part[parts])
        else
            delivers(tick, part[parts - 2], part[parts - 1], part[parts], 1)
    }
    now = answer[1]
}
ask[1] == "death" && !(ask[2] in died) {
    count["death"]++
    died[ask[2]] = now
}
function drops(tick, m, number) {
    count["drop"]++
    print "drops", tick, m, number
}
# A delivery by a tick counts for the windows that are open then.
function delivers(tick, m, s, bytes, by_tick,   v) {
    count["delivery"]++
    print "delivers", tick, m, s ":" bytes
    for (v = 1; by_tick && v <= window; v++)
        if (stream[v] == s && tick <= until[v]) {
            any[v, m]++
            right[v, m] += bytes == payload[v]
        }
}
END {
    for (v = 1; v <= window; v++) {
        if (until[v] > now) {
            count["open"]++
            continue
        }
        live = all = none = 0
        for (m = 0; m < modules; m++) {
            if (role[stream[v], m] != "receives" || (m in died && died[m] < until[v]))
                continue
            live++
            all += any[v, m] == 1 && right[v, m] == 1
            none += !any[v, m]
        }
        count[none == live ? "none" : all == live ? "all" : "differs"]++
    }
    kind_count = split(kinds, kind, " ")
    for (k = 1; k <= kind_count; k++)
        print kind[k], count[kind[k]] + 0
}
