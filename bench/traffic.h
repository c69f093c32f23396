/* What the proved writers make: the recording `cut`; and whether they make what a recording has, whose frames recordings.c makes by itself. */

static uint8_t npdus[8 * 256 + HB_SLOT], written_frame[511];

/* ---- the recording `cut`: so many parameter octets by so many, cut by the later edition, framed from one address to one */

static const struct {
    uint8_t type, to, from, reply, priority;
    size_t octets, each;
    uint8_t fields[HB_APDU];
} wholes[] = {
    {6, 1, 3, 0, 0, 2280, 460, {3, 0, 0, 0, 0, 0, 0, 10, 0, 8, 14, 0, 0}},
    {5, 3, 1, 1, 0, 1000, 45, {0, 0, 0, 1, 0, 0, 5, 11, 0, 4, 15, 0, 0}},
    {5, 3, 1, 1, 1, 1000, 45, {0, 0, 0, 1, 0, 0, 5, 12, 0, 4, 15, 0, 7}}, /* a code of segments accepted: refused in 1995 */
    {6, 1, 4, 0, 3, 948, 474, {3, 0, 0, 0, 0, 0, 0, 13, 0, 1, 14, 0, 0}}, /* the largest segments, both full */
    {6, 1, 4, 0, 0, 0, 1, {3, 0, 0, 0, 0, 0, 0, 14, 0, 127, 14, 0, 0}},   /* no parameters */
    {5, 3, 1, 1, 2, 4096, 16, {0, 0, 0, 0, 0, 0, 3, 15, 0, 2, 15, 0, 0}}, /* 256 segments */
};

/* Texts of 17 characters, and nulls to fill up. */
static void parameters(size_t n)
{
    const uint8_t *text = (const uint8_t *)"\x75\x12\0Chamber 12 closed";
    size_t at = 0;
    for (; at + 20 <= n; at += 20)
        for (size_t i = 0; i < 20; i++) octets[at + i] = text[i];
    for (; at < n; at++) octets[at] = 0;
}

/* A frame's octets as records, behind those that are there. */
static void recorded(size_t n)
{
    for (size_t i = 0; i < n; i++) {
        file[4 * record_count] = 0;
        file[4 * record_count + 1] = written_frame[i];
        file[4 * record_count + 2] = file[4 * record_count + 3] = 0;
        record_count++;
    }
}

static void traffic(void)
{
    for (size_t i = 0; i < sizeof wholes / sizeof *wholes; i++) {
        size_t wrote, segments, framed, step = (wholes[i].fields[0] ? 7 : 8) + wholes[i].each;
        parameters(wholes[i].octets);
        if (hb_cut(wholes[i].fields, HB_APDU, 1, wholes[i].reply, wholes[i].priority, wholes[i].each, octets, wholes[i].octets, npdus, sizeof npdus, &wrote, &segments)) leave(3);
        for (size_t k = 0; k < segments; k++) {
            size_t n = k + 1 < segments ? step : wrote - k * step;
            if (hb_frame_write(wholes[i].type, wholes[i].to, wholes[i].from, npdus + k * step, n, written_frame, sizeof written_frame, &framed)) leave(3);
            recorded(framed);
        }
    }
    for (size_t done = 0; done < 4 * record_count;) {
        long n = call(1, 1, (long)(file + done), (long)(4 * record_count - done));
        if (n <= 0) leave(2);
        done += (size_t)n;
    }
}

/* ---- a recording held against what they write */

static size_t good_frames, complete, cut_so;

/* The segments of each slot's message: their octets end to end, and the parameter octets of the first. Where they are too many they
   begin anew, and the message is not found to be cut so. */
static struct { uint8_t octets[1 << 16]; size_t held, each; } heard[4];

static int equal(const uint8_t *a, const uint8_t *b, size_t n)
{
    while (n && *a == *b) a++, b++, n--;
    return n == 0;
}

/* A completed message: whether its parameters, cut by the first segment's number of octets, are the segments heard. */
static void message_heard(const uint8_t *network, const uint8_t *fields, unsigned slot, size_t total)
{
    size_t wrote, segments, each = heard[slot].each ? heard[slot].each : 1;
    complete++;
    if (hb_cut(fields, HB_APDU, later, network[3], network[4], each, area + (size_t)HB_SLOT * slot, total, npdus, sizeof npdus, &wrote, &segments)) return;
    cut_so += wrote == heard[slot].held && equal(npdus, heard[slot].octets, wrote);
}

/* A segment that was taken. */
static void segment_heard(const uint8_t *data, size_t n)
{
    uint8_t network[HB_NPDU], fields[HB_APDU];
    unsigned slot = report[7];
    size_t at = 0, part = 0, total = (size_t)report[10] << 8 | report[11];
    if (hb_npdu_read(data, n, network, HB_NPDU, &at) || hb_apdu_read(data + at, n - at, later, fields, HB_APDU, &part)) leave(3);
    part = n - at - part;
    if (total == part) heard[slot].held = 0, heard[slot].each = part;
    if (sizeof heard->octets < heard[slot].held + n) heard[slot].held = 0;
    for (size_t i = 0; i < n; i++) heard[slot].octets[heard[slot].held++] = data[i];
    if (report[0] == 5) message_heard(network, fields, slot, total);
}

/* A good frame that was heard is what hb_frame_write makes of its head and its data. */
static void held_against(size_t eaten)
{
    const uint8_t *head = state + HB_HEAD, *data = state + HB_FRAME;
    size_t wrote, n = (size_t)head[3] << 8 | head[4];
    if (report[0] == 2) return;
    if (hb_frame_write(head[0], head[1], head[2], data, n, written_frame, sizeof written_frame, &wrote)) leave(1);
    if (eaten < wrote || !equal(written_frame, octets + eaten - wrote, wrote)) leave(1);
    good_frames++;
    if (report[0] == 4 || report[0] == 5) segment_heard(data, n);
}

static void run_heard(size_t from, size_t to)
{
    while (from < to) {
        int reported = 0;
        from += feed(octets + from, piece < to - from ? piece : to - from, &reported);
        if (reported) held_against(from);
    }
}

/* All of the recording; then how many good frames, how many messages complete, how many of these cut so. */
static void written(void)
{
    size_t from = 0;
    fresh();
    for (size_t i = 0; i <= event_count; i++) {
        size_t to = i < event_count ? events[i].at : octet_count;
        run_heard(from, to);
        from = to;
        if (i == event_count) break;
        if (events[i].kind == 2)
            forget(events[i].value);
        else
            silence();
    }
    say_number(good_frames, 10, 1);
    say(" ");
    say_number(complete, 10, 1);
    say(" ");
    say_number(cut_so, 10, 1);
    say("\n");
}
