int main(int a) { switch (a) { case 1: ; case 1: ; } }
