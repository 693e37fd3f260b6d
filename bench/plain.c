/* The bus in plain C: the yardstick for the cost of a tick.
 *
 * Build:  cc -std=c11 -O3 -o plain plain.c
 * Use:    echo 50000000 | ./plain [MASTERS [PORTS]]
 *
 * Masters write 03 12 or 03 10 to the register file at 0x50 for ever; all are
 * armed again as soon as the bus is free and none is armed. MASTERS of them (2)
 * alternate in clock and byte; PORTS register files (1) stand at 0x50 and up.
 *
 * Every part is general: any transfer, any mix of hosts and devices. main needs
 * only the register file and the poll host; the other makes are here so that no
 * call can be fitted to these two.
 */
#include <stdbool.h>
#include <stdint.h>
#include <stdio.h>
#include <stdlib.h>
#include <string.h>

enum { MAX_MASTERS = 8, MAX_PORTS = 16, MAX_LEGS = 2, MAX_BYTES = 16, MAX_LIST = 8, MAX_QUEUE = 8 };

/* Refusals; 0 means the call was carried out. */
enum refusal {
    OK = 0,
    BAD_ADDRESS = 1,
    BAD_CLOCK = 2,
    TWO_LEGS_ALREADY = 3,
    BAD_LENGTH = 4,
    NO_SUCH_MASTER = 5,
    ARMED_ALREADY = 6,
    WANTS_NOTHING = 7,
};

/* ------------------------------------------------------------- devices */

struct device;

struct device_ops {
    bool (*select)(struct device *, bool read);
    bool (*put)(struct device *, uint8_t byte);
    uint8_t (*take)(struct device *);
    void (*finish)(struct device *);
    uint8_t (*hold)(const struct device *);
};

/* Each make begins with this, so a pointer to it is a pointer to the make. */
struct device {
    const struct device_ops *ops;
};

static uint8_t no_hold(const struct device *d)
{
    (void)d;
    return 0;
}

static void no_finish(struct device *d)
{
    (void)d;
}

struct register_file {
    struct device device;
    uint8_t pointer;
    bool awaits_pointer;
    uint8_t bytes[16];
};

static bool register_file_select(struct device *d, bool read)
{
    struct register_file *r = (struct register_file *)d;
    if (!read)
        r->awaits_pointer = true;
    return true;
}

static bool register_file_put(struct device *d, uint8_t byte)
{
    struct register_file *r = (struct register_file *)d;
    if (r->awaits_pointer) {
        if (byte >= 16)
            return false;
        r->pointer = byte;
        r->awaits_pointer = false;
        return true;
    }
    r->bytes[r->pointer] = byte;
    r->pointer = (r->pointer + 1) % 16;
    return true;
}

static uint8_t register_file_take(struct device *d)
{
    struct register_file *r = (struct register_file *)d;
    uint8_t byte = r->bytes[r->pointer];
    r->pointer = (r->pointer + 1) % 16;
    return byte;
}

void register_file_init(struct register_file *r)
{
    static const struct device_ops ops = {
        register_file_select, register_file_put, register_file_take, no_finish, no_hold,
    };
    memset(r, 0, sizeof *r);
    r->device.ops = &ops;
}

struct event_queue {
    struct device device;
    uint8_t first, count;
    uint8_t bytes[MAX_QUEUE];
};

static bool event_queue_select(struct device *d, bool read)
{
    const struct event_queue *q = (const struct event_queue *)d;
    return read && q->first < q->count;
}

static bool event_queue_put(struct device *d, uint8_t byte)
{
    (void)d;
    (void)byte;
    return false;
}

static uint8_t event_queue_take(struct device *d)
{
    struct event_queue *q = (struct event_queue *)d;
    return q->first < q->count ? q->bytes[q->first++] : 0xFF;
}

enum refusal event_queue_init(struct event_queue *q, const uint8_t *bytes, unsigned count)
{
    static const struct device_ops ops = {
        event_queue_select, event_queue_put, event_queue_take, no_finish, no_hold,
    };
    if (count > MAX_QUEUE)
        return BAD_LENGTH;
    memset(q, 0, sizeof *q);
    q->device.ops = &ops;
    q->count = (uint8_t)count;
    memcpy(q->bytes, bytes, count);
    return OK;
}

/* Says no to the next k selects after a selection in which a byte was put. */
struct busy_layer {
    struct device device;
    struct device *below;
    uint8_t k;
    uint8_t left;
    bool selected;
    bool put_taken;
};

static bool busy_select(struct device *d, bool read)
{
    struct busy_layer *b = (struct busy_layer *)d;
    if (b->left > 0) {
        b->left--;
        return false;
    }
    if (!b->below->ops->select(b->below, read))
        return false;
    if (!b->selected) {
        b->selected = true;
        b->put_taken = false;
    }
    return true;
}

static bool busy_put(struct device *d, uint8_t byte)
{
    struct busy_layer *b = (struct busy_layer *)d;
    if (!b->below->ops->put(b->below, byte))
        return false;
    b->put_taken = true;
    return true;
}

static uint8_t busy_take(struct device *d)
{
    struct busy_layer *b = (struct busy_layer *)d;
    return b->below->ops->take(b->below);
}

static void busy_finish(struct device *d)
{
    struct busy_layer *b = (struct busy_layer *)d;
    b->below->ops->finish(b->below);
    if (b->selected && b->put_taken)
        b->left = b->k;
    b->selected = false;
}

static uint8_t busy_hold(const struct device *d)
{
    const struct busy_layer *b = (const struct busy_layer *)d;
    return b->below->ops->hold(b->below);
}

void busy_layer_init(struct busy_layer *b, uint8_t k, struct device *below)
{
    static const struct device_ops ops = {
        busy_select, busy_put, busy_take, busy_finish, busy_hold,
    };
    memset(b, 0, sizeof *b);
    b->device.ops = &ops;
    b->below = below;
    b->k = k;
}

/* Holds the clock at least this many ticks. */
struct slow_layer {
    struct device device;
    struct device *below;
    uint8_t hold;
};

static bool slow_select(struct device *d, bool read)
{
    struct slow_layer *s = (struct slow_layer *)d;
    return s->below->ops->select(s->below, read);
}

static bool slow_put(struct device *d, uint8_t byte)
{
    struct slow_layer *s = (struct slow_layer *)d;
    return s->below->ops->put(s->below, byte);
}

static uint8_t slow_take(struct device *d)
{
    struct slow_layer *s = (struct slow_layer *)d;
    return s->below->ops->take(s->below);
}

static void slow_finish(struct device *d)
{
    struct slow_layer *s = (struct slow_layer *)d;
    s->below->ops->finish(s->below);
}

static uint8_t slow_hold(const struct device *d)
{
    const struct slow_layer *s = (const struct slow_layer *)d;
    uint8_t below = s->below->ops->hold(s->below);
    return below > s->hold ? below : s->hold;
}

void slow_layer_init(struct slow_layer *s, uint8_t hold, struct device *below)
{
    static const struct device_ops ops = {
        slow_select, slow_put, slow_take, slow_finish, slow_hold,
    };
    memset(s, 0, sizeof *s);
    s->device.ops = &ops;
    s->below = below;
    s->hold = hold;
}

/* ------------------------------------------------- transfers and hosts */

struct leg {
    uint8_t head; /* address and direction as they go over the bus; 1 reads */
    uint8_t count;
    uint8_t bytes[MAX_BYTES];
};

struct transfer {
    uint8_t legs;
    struct leg leg[MAX_LEGS];
};

static bool reads(const struct leg *leg)
{
    return leg->head & 1;
}

static bool bad_address(unsigned address)
{
    return address < 8 || address > 119;
}

/* Legs are added one by one; a transfer on the bus is only looked at. */
static enum refusal add_leg(struct transfer *t, unsigned address, bool read,
                            const uint8_t *bytes, unsigned count)
{
    if (bad_address(address))
        return BAD_ADDRESS;
    if (t->legs == MAX_LEGS)
        return TWO_LEGS_ALREADY;
    if (count > MAX_BYTES || (read && count == 0))
        return BAD_LENGTH;
    struct leg *leg = &t->leg[t->legs++];
    leg->head = (uint8_t)(address << 1 | read);
    leg->count = (uint8_t)count;
    if (!read && count > 0)
        memcpy(leg->bytes, bytes, count);
    return OK;
}

enum refusal add_write(struct transfer *t, unsigned address, const uint8_t *bytes, unsigned count)
{
    return add_leg(t, address, false, bytes, count);
}

enum refusal add_read(struct transfer *t, unsigned address, unsigned count)
{
    return add_leg(t, address, true, NULL, count);
}

enum outcome_kind { DONE, NO_ANSWER, BYTE_REFUSED };

struct outcome {
    enum outcome_kind kind;
    uint8_t leg;   /* of NO_ANSWER and BYTE_REFUSED */
    uint8_t byte;  /* of BYTE_REFUSED */
    uint8_t count; /* bytes read, of DONE */
    uint8_t bytes[MAX_LEGS * MAX_BYTES];
};

struct host;

struct host_ops {
    const struct transfer *(*want)(const struct host *); /* NULL: nothing */
    void (*told)(struct host *, const struct outcome *);
};

struct host {
    const struct host_ops *ops;
    struct outcome last;
};

struct list_host {
    struct host host;
    uint8_t place, count;
    struct transfer list[MAX_LIST];
};

static const struct transfer *list_want(const struct host *h)
{
    const struct list_host *l = (const struct list_host *)h;
    return l->place < l->count ? &l->list[l->place] : NULL;
}

static void list_told(struct host *h, const struct outcome *o)
{
    struct list_host *l = (struct list_host *)h;
    h->last = *o;
    if (l->place < l->count)
        l->place++;
}

enum refusal list_host_init(struct list_host *l, const struct transfer *list, unsigned count)
{
    static const struct host_ops ops = { list_want, list_told };
    if (count > MAX_LIST)
        return BAD_LENGTH;
    memset(l, 0, sizeof *l);
    l->host.ops = &ops;
    l->count = (uint8_t)count;
    memcpy(l->list, list, count * sizeof *list);
    return OK;
}

struct poll_host {
    struct host host;
    bool met;
    uint8_t mask;
    struct transfer transfer;
};

static const struct transfer *poll_want(const struct host *h)
{
    const struct poll_host *p = (const struct poll_host *)h;
    return p->met ? NULL : &p->transfer;
}

static void poll_told(struct host *h, const struct outcome *o)
{
    struct poll_host *p = (struct poll_host *)h;
    h->last = *o;
    if (o->kind == DONE && o->count > 0 && (o->bytes[o->count - 1] & p->mask))
        p->met = true;
}

void poll_host_init(struct poll_host *p, const struct transfer *t, uint8_t mask)
{
    static const struct host_ops ops = { poll_want, poll_told };
    memset(p, 0, sizeof *p);
    p->host.ops = &ops;
    p->mask = mask;
    p->transfer = *t;
}

/* -------------------------------------------------- levels and events */

/* What a part pulls low; the two lines also index the event table. */
enum { SDA = 1, SCL = 2 };

enum event { STEADY_HIGH, STEADY_LOW, RISE, FALL, START, STOP };

/* By the lines pulled low in the last tick (upper two bits) and in this one. */
static const uint8_t event_of[16] = {
    [0 << 2 | 0] = STEADY_HIGH,
    [0 << 2 | SDA] = START,
    [SDA << 2 | 0] = STOP,
    [SDA << 2 | SDA] = STEADY_HIGH,
    [0 << 2 | SCL] = FALL,
    [0 << 2 | SCL | SDA] = FALL,
    [SDA << 2 | SCL] = FALL,
    [SDA << 2 | SCL | SDA] = FALL,
    [SCL << 2 | 0] = RISE,
    [SCL << 2 | SDA] = RISE,
    [(SCL | SDA) << 2 | 0] = RISE,
    [(SCL | SDA) << 2 | SDA] = RISE,
    [SCL << 2 | SCL] = STEADY_LOW,
    [SCL << 2 | SCL | SDA] = STEADY_LOW,
    [(SCL | SDA) << 2 | SCL] = STEADY_LOW,
    [(SCL | SDA) << 2 | SCL | SDA] = STEADY_LOW,
};

/* A rise carries a bit; a start or stop before the next fall takes it back. */
enum { NO_BIT = 2 };

/* --------------------------------------------------------------- ports */

enum port_state { PORT_OUT, PORT_ADDRESS, PORT_WRITE, PORT_READ };

struct port {
    uint8_t pull;
    uint8_t state;
    uint8_t bits;  /* counted of this byte */
    uint8_t shift; /* bits come in below; in a read they go out above */
    uint8_t hold;  /* steady-low ticks until SCL is let go */
    bool finish_owed;
    uint8_t address;
    struct device *device;
};

static void port_finish(struct port *p)
{
    if (p->finish_owed) {
        p->finish_owed = false;
        p->device->ops->finish(p->device);
    }
}

static void port_show(struct port *p)
{
    p->pull = p->shift & 0x80 ? 0 : SDA;
    p->shift = (uint8_t)(p->shift << 1);
}

static void port_take(struct port *p)
{
    p->shift = p->device->ops->take(p->device);
    port_show(p);
}

/* The last thing at a ninth bit that leaves the port in. */
static void port_next_byte(struct port *p)
{
    p->bits = 0;
    p->hold = p->device->ops->hold(p->device);
    if (p->hold > 0)
        p->pull |= SCL;
}

static void port_bit(struct port *p, unsigned bit)
{
    p->bits++;
    switch ((enum port_state)p->state) {
    case PORT_OUT:
        break;

    case PORT_ADDRESS:
        if (p->bits < 9)
            p->shift = (uint8_t)(p->shift << 1 | bit);
        if (p->bits == 8) {
            if (p->shift >> 1 == p->address && p->device->ops->select(p->device, p->shift & 1)) {
                p->finish_owed = true;
                p->pull = SDA;
            } else {
                p->state = PORT_OUT;
            }
        } else if (p->bits == 9) {
            p->pull = 0;
            if (p->shift & 1) {
                p->state = PORT_READ;
                port_take(p);
            } else {
                p->state = PORT_WRITE;
            }
            port_next_byte(p);
        }
        break;

    case PORT_WRITE:
        if (p->bits < 9)
            p->shift = (uint8_t)(p->shift << 1 | bit);
        if (p->bits == 8) {
            if (p->device->ops->put(p->device, p->shift))
                p->pull = SDA;
            else
                p->state = PORT_OUT;
        } else if (p->bits == 9) {
            p->pull = 0;
            port_next_byte(p);
        }
        break;

    case PORT_READ:
        if (p->bits < 8) {
            port_show(p);
        } else if (p->bits == 8) {
            p->pull = 0; /* the master acknowledges */
        } else if (bit == 0) {
            port_take(p);
            port_next_byte(p);
        } else {
            p->state = PORT_OUT;
        }
        break;
    }
}

static void port_step(struct port *p, enum event event, unsigned bit)
{
    switch (event) {
    case STEADY_LOW:
        if (p->hold > 0 && --p->hold == 0)
            p->pull &= (uint8_t)~SCL;
        break;
    case FALL:
        if (p->state != PORT_OUT && bit != NO_BIT)
            port_bit(p, bit);
        break;
    case START:
        port_finish(p);
        p->state = PORT_ADDRESS;
        p->bits = 0;
        break;
    case STOP:
        port_finish(p);
        p->state = PORT_OUT;
        break;
    case STEADY_HIGH:
    case RISE:
        break;
    }
}

/* ------------------------------------------------------------- masters */

/* What a master shows; SHOW_BEGIN lasts from its first pull to the first fall. */
enum symbol { SHOW_BEGIN, SHOW_0, SHOW_1, SHOW_LISTEN, SHOW_SR, SHOW_P };

struct master {
    uint8_t pull;
    bool armed;
    bool contends; /* in this turn, and not lost */
    bool ending;   /* P let go of SDA in the last tick */
    uint8_t shown;
    uint8_t count;
    uint8_t low, high;
    uint8_t leg;
    uint8_t byte;  /* of the leg; 0 is the address */
    uint8_t place; /* symbols shown of this byte, 0 to 9 */
    uint8_t shift; /* bits go out above; in a read they come in below */
    const struct transfer *want;
    struct host *host;
    struct outcome outcome;
};

/* What a step may report besides the pulls. */
enum report { NOTHING, TOLD, LOST };

static void master_contend(struct master *m)
{
    m->contends = true;
    m->pull = SDA;
    m->shown = SHOW_BEGIN;
    m->leg = 0;
    m->byte = 0;
    m->place = 0;
    m->shift = m->want->leg[0].head;
    m->outcome.kind = DONE;
    m->outcome.count = 0;
}

static enum report master_lose(struct master *m)
{
    m->contends = false;
    m->ending = false;
    m->pull = 0;
    return LOST;
}

static enum symbol master_fail(struct master *m)
{
    struct outcome *o = &m->outcome;
    o->kind = m->byte == 0 ? NO_ANSWER : BYTE_REFUSED;
    o->leg = m->leg;
    o->byte = m->byte == 0 ? 0 : (uint8_t)(m->byte - 1);
    o->count = 0;
    return SHOW_P;
}

/* At a fall: the bit of the symbol shown so far counts; the next one follows. */
static enum symbol master_next(struct master *m, unsigned bit)
{
    const struct leg *leg = &m->want->leg[m->leg];
    bool read_byte = m->byte > 0 && reads(leg);

    if (m->place == 9) {
        if (!read_byte && bit == 1)
            return master_fail(m);
        m->place = 0;
        if (m->byte == leg->count) {
            if (m->leg + 1 == m->want->legs)
                return SHOW_P;
            m->leg++;
            m->byte = 0;
            m->shift = m->want->leg[m->leg].head;
            return SHOW_SR;
        }
        m->byte++;
        read_byte = reads(leg);
        if (!read_byte)
            m->shift = leg->bytes[m->byte - 1];
    } else if (read_byte && m->place > 0) {
        m->shift = (uint8_t)(m->shift << 1 | bit);
        if (m->place == 8)
            m->outcome.bytes[m->outcome.count++] = m->shift;
    }

    m->place++;
    if (m->place == 9) {
        if (!read_byte)
            return SHOW_LISTEN;
        return m->byte == leg->count ? SHOW_1 : SHOW_0;
    }
    if (read_byte)
        return SHOW_LISTEN;
    enum symbol s = m->shift & 0x80 ? SHOW_1 : SHOW_0;
    m->shift = (uint8_t)(m->shift << 1);
    return s;
}

/* free_high: steady-high on a free bus with both lines high. */
static enum report master_step(struct master *m, enum event event, unsigned bit,
                               bool sda_low, bool free_high)
{
    if (!m->contends) {
        if (free_high && m->armed)
            master_contend(m);
        return NOTHING;
    }

    if (m->ending) {
        if (event != STOP)
            return master_lose(m);
        m->ending = false;
        m->contends = false;
        m->armed = false;
        m->host->ops->told(m->host, &m->outcome);
        return TOLD;
    }

    switch (event) {
    case STEADY_LOW:
        if (m->count > 0 && --m->count == 0)
            m->pull &= (uint8_t)~SCL;
        break;
    case STEADY_HIGH:
        if (--m->count == 0)
            m->pull |= SCL;
        break;
    case RISE:
        m->count = m->high;
        if (m->shown == SHOW_P) {
            m->pull = 0;
            m->ending = true;
        } else if (sda_low) {
            if (m->shown == SHOW_1 || m->shown == SHOW_SR)
                return master_lose(m);
        } else if (m->shown == SHOW_SR) {
            m->pull = SDA;
        }
        break;
    case FALL:
        m->count = m->low;
        m->shown = (uint8_t)master_next(m, bit);
        m->pull = m->shown == SHOW_0 || m->shown == SHOW_P ? SCL | SDA : SCL;
        break;
    case START:
        if (m->shown == SHOW_1)
            return master_lose(m);
        m->count = m->high;
        break;
    case STOP: /* only its own P makes one while it contends */
        break;
    }
    return NOTHING;
}

/* ----------------------------------------------------------------- bus */

struct bus {
    uint8_t pulled; /* lines that some part pulls: the levels of the next tick */
    uint8_t last;   /* lines that were low in the last tick */
    uint8_t bit;    /* carried by the last rise, or NO_BIT */
    bool busy;
    uint8_t armed;  /* how many masters are armed */
    uint8_t masters, ports;
    struct master master[MAX_MASTERS];
    struct port port[MAX_PORTS];
};

struct answer {
    bool scl, sda;      /* the levels */
    enum event event;
    uint8_t told, lost; /* a bit for each master */
};

void bus_init(struct bus *b)
{
    memset(b, 0, sizeof *b);
    b->bit = NO_BIT;
}

enum refusal bus_add_master(struct bus *b, unsigned low, unsigned high, struct host *host)
{
    if (low < 1 || low > 255 || high < 1 || high > 255)
        return BAD_CLOCK;
    struct master *m = &b->master[b->masters++];
    m->low = (uint8_t)low;
    m->high = (uint8_t)high;
    m->host = host;
    return OK;
}

enum refusal bus_add_port(struct bus *b, unsigned address, struct device *device)
{
    if (bad_address(address))
        return BAD_ADDRESS;
    struct port *p = &b->port[b->ports++];
    p->address = (uint8_t)address;
    p->device = device;
    return OK;
}

enum refusal bus_arm(struct bus *b, unsigned number)
{
    if (number >= b->masters)
        return NO_SUCH_MASTER;
    struct master *m = &b->master[number];
    if (m->armed)
        return ARMED_ALREADY;
    m->want = m->host->ops->want(m->host);
    if (m->want == NULL)
        return WANTS_NOTHING;
    m->armed = true;
    b->armed++;
    return OK;
}

bool bus_at_rest(const struct bus *b)
{
    return !b->busy && b->armed == 0;
}

/* All parts see the same event; what they then pull shows in the next tick. */
void bus_tick(struct bus *b, struct answer *a)
{
    bool sda_low = b->pulled & SDA;
    enum event event = (enum event)event_of[b->last << 2 | b->pulled];
    unsigned bit = event == FALL ? b->bit : NO_BIT;

    switch (event) {
    case RISE:
        b->bit = sda_low ? 0 : 1;
        break;
    case START:
        b->busy = true;
        b->bit = NO_BIT;
        break;
    case STOP:
        b->busy = false;
        b->bit = NO_BIT;
        break;
    case STEADY_HIGH:
    case STEADY_LOW:
    case FALL:
        break;
    }
    a->scl = !(b->pulled & SCL);
    a->sda = !sda_low;
    a->event = event;
    a->told = 0;
    a->lost = 0;
    b->last = b->pulled;
    b->pulled = 0;

    bool free_high = event == STEADY_HIGH && !sda_low && !b->busy;
    for (unsigned i = 0; i < b->masters; i++) {
        struct master *m = &b->master[i];
        switch (master_step(m, event, bit, sda_low, free_high)) {
        case TOLD:
            a->told |= (uint8_t)(1u << i);
            b->armed--;
            break;
        case LOST:
            a->lost |= (uint8_t)(1u << i);
            break;
        case NOTHING:
            break;
        }
        b->pulled |= m->pull;
    }
    for (unsigned i = 0; i < b->ports; i++) {
        port_step(&b->port[i], event, bit);
        b->pulled |= b->port[i].pull;
    }
}

/* ---------------------------------------------------------------- main */

static unsigned argument(int argc, char **argv, int at, unsigned otherwise, unsigned most)
{
    if (argc <= at)
        return otherwise;
    unsigned long n = strtoul(argv[at], NULL, 10);
    if (n < 1 || n > most) {
        fprintf(stderr, "usage: plain [MASTERS 1..%d [PORTS 1..%d]] < number of ticks\n",
                MAX_MASTERS, MAX_PORTS);
        exit(2);
    }
    return (unsigned)n;
}

int main(int argc, char **argv)
{
    static struct bus bus;
    static struct poll_host hosts[MAX_MASTERS];
    static struct register_file files[MAX_PORTS];
    unsigned masters = argument(argc, argv, 1, 2, MAX_MASTERS);
    unsigned ports = argument(argc, argv, 2, 1, MAX_PORTS);
    unsigned long long n, outcomes = 0;

    if (scanf("%llu", &n) != 1)
        return 2;

    bus_init(&bus);
    for (unsigned i = 0; i < masters; i++) {
        const uint8_t bytes[2] = { 0x03, i % 2 == 0 ? 0x12 : 0x10 };
        struct transfer t = { 0 };
        add_write(&t, 0x50, bytes, 2);
        /* A write reads nothing, so the mask is never met. */
        poll_host_init(&hosts[i], &t, 0xFF);
        bus_add_master(&bus, i % 2 == 0 ? 1 : 2, 1, &hosts[i].host);
    }
    for (unsigned i = 0; i < ports; i++) {
        register_file_init(&files[i]);
        bus_add_port(&bus, 0x50 + i, &files[i].device);
    }

    for (unsigned long long tick = 0; tick < n; tick++) {
        if (bus_at_rest(&bus))
            for (unsigned i = 0; i < masters; i++)
                bus_arm(&bus, i);
        struct answer a;
        bus_tick(&bus, &a);
        for (unsigned told = a.told; told != 0; told &= told - 1)
            outcomes++;
    }
    printf("%llu ticks, %llu outcomes\n", n, outcomes);
    return 0;
}
