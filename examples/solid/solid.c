/* A turning icosahedron: its edges are line blits, and what is in front is brighter than what is behind. Two screens of
   two bitplanes take turns. make.sh compiles this to `image`.

   Signed quotients of the compiler's own library have instructions that the 68000 has not, so the library is left out.
   A product of two shorts is one instruction; a quotient is written out in `divided`. */

typedef unsigned short word;

enum { WIDTH = 320, ROWS = 256, ROW_BYTES = WIDTH / 8, PLANE_WORDS = ROWS * ROW_BYTES / 2, PLANES = 2 };
enum { VERTICES = 12, EDGES = 30 };
enum { FIRST_LINE = 44, STEP_LINES = 8, STEPS = ROWS / STEP_LINES };
/* the sides of the three rectangles whose corners are the vertices; an edge is as long as the short side */
enum { SHORT_SIDE = 62, LONG_SIDE = 100, EDGE_SQUARE = 4 * SHORT_SIDE * SHORT_SIDE };
enum { EYE = 400, ZOOM = 400 };
/* the eye sees a face where the depths of its vertices add up to more: 3 r r / EYE, r from the middle to a face */
enum { FACING = 66 };
enum { BEHIND, BEFORE };

static void start(void);

/* The reset reads these two: the supervisor stack, and the first instruction. image.ld puts them at address 0. */
__attribute__((section(".reset"), used)) static void *const reset[2] = {(void *)0x80000, start};

/* The custom registers, by half their offset. */
static volatile word *const custom = (volatile word *)0xdff000;
enum {
    DMACONR = 0x002 / 2, INTREQR = 0x01e / 2, BLTCON0 = 0x040 / 2, BLTCON1 = 0x042 / 2, BLTAFWM = 0x044 / 2,
    BLTALWM = 0x046 / 2, BLTCPT = 0x048 / 2, BLTAPT = 0x050 / 2, BLTDPT = 0x054 / 2, BLTSIZE = 0x058 / 2,
    BLTCMOD = 0x060 / 2, BLTBMOD = 0x062 / 2, BLTAMOD = 0x064 / 2, BLTDMOD = 0x066 / 2, BLTBDAT = 0x072 / 2,
    BLTADAT = 0x074 / 2, COP1LC = 0x080 / 2, COPJMP1 = 0x088 / 2, DMACON = 0x096 / 2, INTENA = 0x09a / 2,
    INTREQ = 0x09c / 2
};

struct point { short x, y, z; };
struct edge { short from, to, sides[2]; };

static struct point solid[VERTICES];
static struct point turned[VERTICES];
static struct edge edges[EDGES];
static word planes[2][PLANES][PLANE_WORDS];
static word list[64 + 8 * STEPS];
static word *list_planes;

/* a / b, where the quotient is a short */
static short divided(long a, short b)
{
    __asm__("divs.w %1, %0" : "+d"(a) : "d"(b));
    return (short)a;
}

static short product(short a, short b) { return (short)(((long)a * b) >> 14); }

/* 16384 times the sine of a quarter of the 256 angles, and of any. */
static const short quarter[65] = {
    0, 402, 804, 1205, 1606, 2006, 2404, 2801, 3196, 3590, 3981, 4370, 4756,
    5139, 5520, 5897, 6270, 6639, 7005, 7366, 7723, 8076, 8423, 8765, 9102, 9434,
    9760, 10080, 10394, 10702, 11003, 11297, 11585, 11866, 12140, 12406, 12665, 12916, 13160,
    13395, 13623, 13842, 14053, 14256, 14449, 14635, 14811, 14978, 15137, 15286, 15426, 15557,
    15679, 15791, 15893, 15986, 16069, 16143, 16207, 16261, 16305, 16340, 16364, 16379, 16384,
};

static short sine(short angle)
{
    short part = angle & 63, at = angle & 64 ? 64 - part : part;
    return angle & 128 ? -quarter[at] : quarter[at];
}

static short cosine(short angle) { return sine(angle + 64); }

/* The twelve vertices are the corners of three rectangles, each in a plane of its own. */
static void make_vertices(void)
{
    short i;
    for (i = 0; i < VERTICES; i++) {
        short a = i & 1 ? SHORT_SIDE : -SHORT_SIDE, b = i & 2 ? LONG_SIDE : -LONG_SIDE;
        struct point *p = &solid[i];
        if (i < 4)
            p->x = 0, p->y = a, p->z = b;
        else if (i < 8)
            p->y = 0, p->z = a, p->x = b;
        else
            p->z = 0, p->x = a, p->y = b;
    }
}

static short is_edge(short i, short j)
{
    short x = solid[i].x - solid[j].x, y = solid[i].y - solid[j].y, z = solid[i].z - solid[j].z;
    long square = (long)x * x + (long)y * y + (long)z * z;
    return i != j && square < EDGE_SQUARE + 2000;
}

/* The thirty pairs of neighbours, each with the two vertices that are neighbours of both: the faces at its sides. */
static void make_edges(void)
{
    struct edge *e = edges;
    short i, j, k;
    for (i = 0; i < VERTICES; i++)
        for (j = 0; j < i; j++)
            if (is_edge(i, j)) {
                short side = 0;
                e->from = i;
                e->to = j;
                for (k = 0; k < VERTICES; k++)
                    if (is_edge(i, k) && is_edge(j, k))
                        e->sides[side++] = k;
                e++;
            }
}

static word *move(word *at, word offset, word value)
{
    at[0] = offset;
    at[1] = value;
    return at + 2;
}

/* The Copper's list: the planes, and a colour of its own for the front edges on each eight lines. */
static void make_list(void)
{
    static const word fixed[][2] = {
        {0x100, 0x2200}, {0x102, 0}, {0x104, 0}, {0x108, 0}, {0x10a, 0}, {0x08e, 0x2c81}, {0x090, 0x2cc1},
        {0x092, 0x38}, {0x094, 0xd0}, {0x180, 0x002}, {0x182, 0x447},
    };
    word *at = list;
    short i;
    for (i = 0; i < (short)(sizeof fixed / sizeof fixed[0]); i++)
        at = move(at, fixed[i][0], fixed[i][1]);
    list_planes = at;
    for (i = 0; i < 2 * PLANES; i++)
        at = move(at, 0xe0 + 2 * i, 0);
    for (i = 0; i < STEPS; i++) {
        short line = FIRST_LINE + STEP_LINES * i, up = i < 16 ? i : 31 - i;
        word colour;
        if (line >= 256 && line < 256 + STEP_LINES)
            at = move(at, 0xffdf, 0xfffe);
        at = move(at, (word)(line << 8 | 1), 0xfffe);
        colour = (word)((15 - i / 2) << 8 | up << 4 | i / 2);
        at = move(at, 0x184, colour);
        at = move(at, 0x186, colour);
    }
    move(at, 0xffff, 0xfffe);
}

static void set_pointer(word *at, void *to)
{
    at[0] = (word)((unsigned long)to >> 16);
    at[2] = (word)(unsigned long)to;
}

/* Puts a screen's planes into the list. */
static void show(word (*screen)[PLANE_WORDS])
{
    short i;
    for (i = 0; i < PLANES; i++)
        set_pointer(list_planes + 4 * i + 1, screen[i]);
}

static void point_at(short reg, void *to)
{
    custom[reg] = (word)((unsigned long)to >> 16);
    custom[reg + 1] = (word)(unsigned long)to;
}

static void wait_for_blitter(void)
{
    while (custom[DMACONR] & 0x4000)
        ;
}

/* One blit clears both planes, which follow one another. */
static void clear(word (*screen)[PLANE_WORDS])
{
    wait_for_blitter();
    custom[BLTCON0] = 0x0100;
    custom[BLTCON1] = 0;
    custom[BLTDMOD] = 0;
    point_at(BLTDPT, screen);
    custom[BLTSIZE] = (word)(ROWS * PLANES << 6 | ROW_BYTES / 2);
}

static void line(word *plane, short x0, short y0, short x1, short y1)
{
    short dx = x1 - x0, dy = y1 - y0, sum;
    word con1 = 1;
    word *first = plane + (y0 * (short)(ROW_BYTES / 2)) + (x0 >> 4);
    short left = dx < 0, up = dy < 0;
    if (left)
        dx = -dx;
    if (up)
        dy = -dy;
    if (dx >= dy) {
        con1 |= 0x10 | up << 3 | left << 2;
    } else {
        short swap = dx;
        con1 |= left << 3 | up << 2;
        dx = dy;
        dy = swap;
    }
    sum = 4 * dy - 2 * dx;
    if (sum < 0)
        con1 |= 0x40;
    wait_for_blitter();
    custom[BLTCON0] = (word)((x0 & 15) << 12 | 0x0bca);
    custom[BLTCON1] = con1;
    custom[BLTAFWM] = 0xffff;
    custom[BLTALWM] = 0xffff;
    custom[BLTADAT] = 0x8000;
    custom[BLTBDAT] = 0xffff;
    custom[BLTCMOD] = ROW_BYTES;
    custom[BLTDMOD] = ROW_BYTES;
    custom[BLTBMOD] = (word)(4 * dy);
    custom[BLTAMOD] = (word)(4 * (dy - dx));
    custom[BLTAPT + 1] = (word)sum;
    point_at(BLTCPT, first);
    point_at(BLTDPT, first);
    custom[BLTSIZE] = (word)((dx + 1) << 6 | 2);
}

/* Turns about two axes, and looks from EYE. */
static void turn(short moment)
{
    short sa = sine(2 * moment), ca = cosine(2 * moment), sb = sine(3 * moment), cb = cosine(3 * moment);
    short i;
    for (i = 0; i < VERTICES; i++) {
        struct point p = solid[i], *to = &turned[i];
        short x = product(p.x, ca) - product(p.z, sa), z = product(p.x, sa) + product(p.z, ca);
        short y = product(p.y, cb) - product(z, sb);
        z = product(p.y, sb) + product(z, cb);
        to->x = WIDTH / 2 + divided((long)x * ZOOM, EYE - z);
        to->y = ROWS / 2 + divided((long)y * ZOOM, EYE - z);
        to->z = z;
    }
}

static void draw(word (*screen)[PLANE_WORDS])
{
    short i;
    for (i = 0; i < EDGES; i++) {
        struct edge *e = &edges[i];
        struct point *from = &turned[e->from], *to = &turned[e->to];
        /* a face is seen where it is turned to the eye */
        short z = from->z + to->z, seen = 0, k;
        for (k = 0; k < 2; k++)
            if (z + turned[e->sides[k]].z > FACING)
                seen = 1;
        line(screen[seen ? BEFORE : BEHIND], from->x, from->y, to->x, to->y);
    }
}

/* Waits for the next field's start. */
static void wait_for_field(void)
{
    custom[INTREQ] = 0x0020;
    while (!(custom[INTREQR] & 0x0020))
        ;
}

static void start(void)
{
    short moment = 0, which = 0;
    custom[INTENA] = 0x7fff;
    custom[INTREQ] = 0x7fff;
    custom[DMACON] = 0x7fff;
    make_vertices();
    make_edges();
    make_list();
    show(planes[1]);
    point_at(COP1LC, list);
    custom[COPJMP1] = 0;
    custom[DMACON] = 0x83c0; /* bitplanes, Copper and blitter */
    for (;;) {
        clear(planes[which]);
        turn(moment++);
        draw(planes[which]);
        wait_for_blitter();
        show(planes[which]); /* from the next field on, when the Copper reads its list again */
        wait_for_field();
        which ^= 1;
    }
}
