int main(int a) {
	 a = 1 ; assert(a == 2); 	
}
