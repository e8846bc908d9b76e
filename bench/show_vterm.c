/* show_vterm ROWS COLS: feeds standard input to libvterm, in pieces of 1,024 bytes like `roam show`. Neither stores scrolled-off lines. It prints
   nothing, since show.sh measures only its time and memory. */
#include <stdio.h>
#include <stdlib.h>
#include <unistd.h>
#include <vterm.h>

int main(int argc, char **argv)
{
  if (argc != 3) {
    fprintf(stderr, "usage: %s ROWS COLS <input\n", argv[0]);
    return 2;
  }
  VTerm *vt = vterm_new(atoi(argv[1]), atoi(argv[2]));
  vterm_set_utf8(vt, 1);
  VTermScreen *screen = vterm_obtain_screen(vt);
  vterm_screen_set_damage_merge(screen, VTERM_DAMAGE_SCROLL);
  vterm_screen_reset(screen, 1);
  char piece[1024];
  ssize_t n;
  while ((n = read(0, piece, sizeof piece)) > 0) {
    vterm_input_write(vt, piece, (size_t)n);
    vterm_screen_flush_damage(screen);
  }
  vterm_free(vt);
  return 0;
}
