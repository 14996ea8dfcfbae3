The weekend of the dead sensor
89 the sensor of task 7 dies. Its task waits without block, and global time stands
188 the small store is full, and twelve makes are refused
216 the cure: task 7 calls block. Global time goes on without it
231 the blocks of four cycles come back together
265 the sensor is back: task 7 resumes and finds its last reading
