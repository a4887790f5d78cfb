<?php
while (1)
continue 1;
