/* The same step in double precision, for bench/run: explicit, plain, in metres and seconds, nothing judged and nothing rounded. Reads what
   `plain numbers` prints. Prints the listing's line of each entry, in the listing's units, and then how many places are drawn down by 1 µm
   or more. */
#include <stdio.h>
#include <stdlib.h>

enum { COLUMNS = 50, CELLS = 20 * COLUMNS };

static int layers, columns;         /* the last column, at constant head, is counted */
static double thickness;            /* of layer 1, m */
static double top_k, second_k;      /* vertical conductivities of layers 1 and 2, m/s */
static double second_half;          /* half the thickness of layer 2, m */
static double well_storage;         /* m², as all storages: m³ per m of drawdown */
static double well_loss;            /* m³, as all volumes */
static double well_c[20];           /* conductance of a layer's face with the well, m²/s; 0 where it is not screened */
static double across_c[CELLS];      /* of a cell's face with the next column, m²/s */
static double down_c[CELLS];        /* of a cell's face with the layer below, m²/s; below layer 1 while the water table is at its bottom */
static double storage[CELLS];
static double loss[CELLS];
static double drawdown[CELLS];      /* at the start of the step, m; 0 in the last column */
static double pumped, inflow;
static double elapsed;              /* s */

static double number(double unit) {
    double value;
    if (scanf("%lf", &value) != 1) {
        fputs("double: a number is missing\n", stderr);
        exit(1);
    }
    return value * unit;
}

static void read_grid(void) {
    layers = (int)number(1);
    columns = (int)number(1);
    thickness = number(1e-3);
    top_k = number(1e-9);
    second_half = number(0.5e-3);
    second_k = number(1e-9);
    well_storage = number(1e-12);
    for (int row = 0; row < layers; row++) {
        well_c[row] = number(1e-12);
        for (int at = row * COLUMNS; at < row * COLUMNS + columns - 1; at++) {
            across_c[at] = number(1e-12);
            down_c[at] = number(1e-12);
            storage[at] = number(1e-12);
        }
    }
}

/* One step of a rate (m³/s) and a length (s). */
static void step(double rate, double length) {
    double well_drawdown = well_loss / well_storage;
    for (int row = 0; row < layers; row++)
        for (int at = row * COLUMNS; at < row * COLUMNS + columns - 1; at++)
            drawdown[at] = loss[at] / storage[at];
    well_loss += rate * length;
    for (int row = 0; row < layers; row++) {
        int first = row * COLUMNS, last = first + columns - 2;
        double water = well_c[row] * (drawdown[first] - well_drawdown) * length;
        well_loss += water;
        loss[first] -= water;
        for (int at = first; at <= last; at++) {
            double c = across_c[at];
            if (row == 0)
                c *= (2 * thickness - drawdown[at] - drawdown[at + 1]) / (2 * thickness);
            water = c * (drawdown[at + 1] - drawdown[at]) * length;
            loss[at] += water;
            if (at < last)
                loss[at + 1] -= water;
            else
                inflow -= water;
        }
        if (row + 1 < layers)
            for (int at = first; at <= last; at++) {
                double c = down_c[at];
                if (row == 0 && c > 0)
                    c *= second_half * top_k / ((thickness - drawdown[at]) * second_k + second_half * top_k);
                water = c * (drawdown[at + COLUMNS] - drawdown[at]) * length;
                loss[at] += water;
                loss[at + COLUMNS] -= water;
            }
    }
    pumped += rate * length;
    elapsed += length;
}

/* The sum of all cells' losses, m³. */
static double cell_loss(void) {
    double sum = 0;
    for (int at = 0; at < CELLS; at++)
        sum += loss[at];
    return sum;
}

/* How many places are drawn down by 1 µm or more. */
static int drawn_down(void) {
    int count = well_loss / well_storage >= 1e-6;
    for (int at = 0; at < CELLS; at++)
        count += storage[at] > 0 && loss[at] / storage[at] >= 1e-6;
    return count;
}

int main(void) {
    read_grid();
    int entries = (int)number(1);
    for (int entry = 1; entry <= entries; entry++) {
        double rate = number(1e-6), length = number(1e-6);
        long repeats = (long)number(1);
        for (long taken = 0; taken < repeats; taken++)
            step(rate, length);
        printf("%d %.0f %.0f %.0f %.0f %.0f %.0f\n", entry, elapsed * 1e6, well_loss / well_storage * 1e6, pumped * 1e12,
               well_loss * 1e12, cell_loss() * 1e12, inflow * 1e12);
    }
    printf("%d\n", drawn_down());
    return 0;
}
