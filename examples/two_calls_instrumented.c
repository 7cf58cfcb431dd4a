void __dyck_pre ( unsigned int ) ;
void __dyck_post ( unsigned int ) ;
int getpid ( void ) ;
int g ( int x ) {
return x ;
}
int f ( int x ) {
getpid ( ) ;
return x ;
}
int main ( void ) {
int __dyck_a1_0 ;
int __dyck_r1 ;
int __dyck_a3_0 ;
int __dyck_r3 ;
return ( ( __dyck_a1_0 = g ( 1 ) ) , __dyck_pre ( 1u ) , ( __dyck_r1 = f ( __dyck_a1_0 ) ) , __dyck_post ( 1u ) , __dyck_r1 ) + ( ( __dyck_a3_0 = 2 ) , __dyck_pre ( 3u ) , ( __dyck_r3 = f ( __dyck_a3_0 ) ) , __dyck_post ( 3u ) , __dyck_r3 ) ;
}
