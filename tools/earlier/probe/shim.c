#include <stddef.h>
#include <stdint.h>
typedef struct { const void *p; size_t n; } S;
#define A(x) const uint8_t *x, size_t x##n
#define L(x) S s##x = { x, x##n }
void rt_check(S*,S*,uint64_t*); void rt_registry(S*,S*,uint32_t*,uint64_t*); void rt_check_library(S*,S*,S*,uint64_t*);
void rt_check_at(S*,uint32_t,S*,uint64_t*); void rt_substitute(S*,S*,uint32_t,uint16_t,S*,S*,S*,uint64_t*);
void rt_expand(S*,S*,uint32_t,uint16_t,S*,S*,S*,uint32_t*,uint64_t*); void rt_preview(S*,S*,uint32_t,uint16_t,S*,S*,uint64_t*);
void rt_judge(S*,S*,S*,uint32_t,uint16_t,S*,S*,S*,uint64_t*); void rt_older(S*,S*,uint64_t*); void rt_merge(S*,S*,S*,S*,uint64_t*);
void rt_profile(S*,uint64_t*);
void rt_sheet_open(S*,S*,uint32_t,uint16_t,S*,uint64_t*,uint64_t*); void rt_sheet_next(S*,S*,uint64_t*,S*,S*,S*,uint32_t*,uint64_t*);
void neukolja_check(A(d),A(m),uint64_t*a){L(d);L(m);rt_check(&sd,&sm,a);}
void neukolja_registry(A(d),A(m),uint32_t*c,uint64_t*a){L(d);L(m);rt_registry(&sd,&sm,c,a);}
void neukolja_check_library(A(d),A(r),A(m),uint64_t*a){L(d);L(r);L(m);rt_check_library(&sd,&sr,&sm,a);}
void neukolja_check_at(A(d),uint32_t i,A(m),uint64_t*a){L(d);L(m);rt_check_at(&sd,i,&sm,a);}
void neukolja_substitute(A(d),A(c),uint32_t l,uint16_t f,A(r),A(w),A(m),uint64_t*a){L(d);L(c);L(r);L(w);L(m);rt_substitute(&sd,&sc,l,f,&sr,&sw,&sm,a);}
void neukolja_expand(A(d),A(c),uint32_t l,uint16_t f,A(r),A(w),A(m),uint32_t*n,uint64_t*a){L(d);L(c);L(r);L(w);L(m);rt_expand(&sd,&sc,l,f,&sr,&sw,&sm,n,a);}
void neukolja_preview(A(d),A(c),uint32_t l,uint16_t f,A(w),A(m),uint64_t*a){L(d);L(c);L(w);L(m);rt_preview(&sd,&sc,l,f,&sw,&sm,a);}
void neukolja_judge(A(d),A(c),A(s),uint32_t l,uint16_t f,A(r),A(w),A(m),uint64_t*a){L(d);L(c);L(s);L(r);L(w);L(m);rt_judge(&sd,&sc,&ss,l,f,&sr,&sw,&sm,a);}
void neukolja_older(A(d),A(r),uint64_t*a){L(d);L(r);rt_older(&sd,&sr,a);}
void neukolja_merge(A(d),A(c),A(r),A(m),uint64_t*a){L(d);L(c);L(r);L(m);rt_merge(&sd,&sc,&sr,&sm,a);}
void neukolja_profile(A(d),uint64_t*a){L(d);rt_profile(&sd,a);}
void neukolja_sheet_open(A(d),A(s),uint32_t b,uint16_t f,A(m),uint64_t*t,uint64_t*a){L(d);L(s);L(m);rt_sheet_open(&sd,&ss,b,f,&sm,t,a);}
void neukolja_sheet_next(A(d),A(s),uint64_t*t,A(r),A(w),A(m),uint32_t*n,uint64_t*a){L(d);L(s);L(r);L(w);L(m);rt_sheet_next(&sd,&ss,t,&sr,&sw,&sm,n,a);}
/* missing here: the provider's three */
